//! A small deterministic generator (xorshift).

pub struct Random(u64);

impl Random {
    pub fn new(seed: u64) -> Random {
        let mut random = Random((seed + 1).wrapping_mul(0x9E37_79B9_7F4A_7C15));
        (0..4).for_each(|_| {
            random.word();
        });
        random
    }

    pub fn word(&mut self) -> u32 {
        self.0 ^= self.0 << 13;
        self.0 ^= self.0 >> 7;
        self.0 ^= self.0 << 17;
        (self.0 >> 16) as u32
    }

    /// A number from 0 to `many` - 1.
    pub fn below(&mut self, many: usize) -> usize {
        self.word() as usize % many
    }

    pub fn small(&mut self, many: u32) -> u32 {
        self.word() % many
    }

    /// A number from `least` to `most`.
    pub fn between(&mut self, least: usize, most: usize) -> usize {
        least + self.below(most - least + 1)
    }

    pub fn chance(&mut self, percent: u32) -> bool {
        self.small(100) < percent
    }

    pub fn pick<T: Clone>(&mut self, of: &[T]) -> T {
        of[self.below(of.len())].clone()
    }

    /// Some of these, at most `most`, in any order, each once.
    pub fn some<T: Clone>(&mut self, of: &[T], least: usize, most: usize) -> Vec<T> {
        let (mut left, mut some) = (of.to_vec(), Vec::new());
        for _ in 0..self.between(least, most.min(of.len()).max(least)) {
            let at = self.below(left.len());
            some.push(left.swap_remove(at));
        }
        some
    }

    pub fn words(&mut self, many: usize) -> Vec<u32> {
        (0..many).map(|_| self.word()).collect()
    }
}
