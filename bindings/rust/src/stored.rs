//! A reader of plan words. The engine tests them first, so that what is read here is an accepted plan.

use crate::calls::least_output;
use crate::plans::{Key, Plan, PlanEnding, AND, COMPARISON, COUNT_BITS, FALLING, GROUP, IN_REGISTERS, NOT, OR, TOP, YEAR};
use crate::refusals::Refusal;
use crate::terms::{Term, Variable};

impl Plan {
    /// The plan of some words, as one that was stored or sent. Refused by 5, 6 and 23, where every call with them would be.
    ///
    /// ```
    /// use sotjarn::{Plan, PlanEnding, Refusal, Variable};
    ///
    /// // ?0 n10 ?1, rows ?1 ?0
    /// let words = [0x1000_0001, 0x2000_0001, 0xC000_0000, 10, 0xC000_0001, 0x3000_0000, 0x8000_0002, 0xC000_0001, 0xC000_0000];
    /// let plan = Plan::from_words(&words)?;
    /// assert_eq!(plan.ending(), &PlanEnding::Rows(vec![Variable(1), Variable(0)]));
    /// assert_eq!(plan.words(), words);
    /// assert_eq!(Plan::from_words(&words[1..]), Err(Refusal::PlanForm));
    /// let of_every_year = [&[0], &words[..]].concat();
    /// assert_eq!(Plan::from_words(&of_every_year)?.ending(), plan.ending());
    /// # Ok::<(), Refusal>(())
    /// ```
    pub fn from_words(words: &[u32]) -> Result<Plan, Refusal> {
        least_output(words)?;
        let mut rest = Accepted(words);
        rest.skip_years();
        for _ in 0..rest.take().1 {
            rest.skip_branch();
        }
        Ok(Plan {
            words: words.to_vec(),
            ending: rest.ending(),
        })
    }
}

/// The words of an accepted plan that are not read yet. Past their end there are words 0, of no kind.
struct Accepted<'a>(&'a [u32]);

impl Accepted<'_> {
    fn word(&mut self) -> u32 {
        let (&word, rest) = self.0.split_first().unwrap_or((&0, &[]));
        self.0 = rest;
        word
    }

    /// The kind and the count of the next word.
    fn take(&mut self) -> (u32, usize) {
        let word = self.word();
        (word >> COUNT_BITS, (word & ((1 << COUNT_BITS) - 1)) as usize)
    }

    fn skip(&mut self, words: usize) {
        self.0 = self.0.get(words..).unwrap_or_default();
    }

    /// Goes past the word that says which years are read, where there is one.
    fn skip_years(&mut self) {
        if self.0.first().is_some_and(|word| word >> COUNT_BITS == YEAR) {
            self.skip(1);
        }
    }

    /// Goes past a branch: its patterns, and the nodes of its condition.
    fn skip_branch(&mut self) {
        let patterns = self.take().1;
        self.skip(3 * patterns);
        let mut nodes = 1;
        while nodes > 0 {
            nodes -= 1;
            match self.take().0 {
                AND | OR => nodes += 2,
                NOT => nodes += 1,
                COMPARISON => self.skip(2),
                _ => (),
            }
        }
    }

    fn variables(&mut self, count: usize) -> Vec<Variable> {
        let number = |word| Variable(word & ((1 << Term::VALUE_BITS) - 1));
        (0..count).map(|_| number(self.word())).collect()
    }

    fn key(&mut self) -> Key {
        match self.take() {
            (FALLING, number) => Key::Falling(Variable(number as u32)),
            (_, number) => Key::Rising(Variable(number as u32)),
        }
    }

    fn ending(mut self) -> PlanEnding {
        match self.take() {
            (TOP, k) => {
                let columns = self.take().1;
                PlanEnding::Top {
                    k: k as u32,
                    rows: self.variables(columns),
                    keys: (0..self.0.len()).map(|_| self.key()).collect(),
                }
            }
            (GROUP, count) => {
                let by = self.variables(count);
                let measured = self.variables(1)[0];
                PlanEnding::Group { by, measured }
            }
            (IN_REGISTERS, _) => PlanEnding::Registers(self.variables(1)[0]),
            (_, count) => PlanEnding::Rows(self.variables(count)),
        }
    }
}
