//! Registers, their merging and a report on them, as plainly as the rules say it.

use super::words::UNBOUND;

pub const REGISTERS: usize = 16;
pub const MOST_RANK: u32 = 61;

/// A report on a kept list, which is the first words of its buffer, as many as are given.
#[derive(Clone, Debug)]
pub struct Report {
    pub kept: Vec<u32>,
    pub given: usize,
    pub report: Vec<u32>,
}

/// 64-bit FNV-1a of some bytes.
fn hash(bytes: &[u8]) -> u64 {
    bytes.iter().fold(14_695_981_039_346_656_037, |hash, &byte| {
        ((u128::from(hash) ^ u128::from(byte)) * 1_099_511_628_211 % (1 << 64)) as u64
    })
}

/// The registers of some values: the top four bits of a hash pick one, which has one more than the zeros that lead the other 60, at most.
pub fn registers(values: impl IntoIterator<Item = u32>) -> Vec<u32> {
    let mut made = vec![0; REGISTERS];
    for value in values.into_iter().filter(|&value| value != UNBOUND) {
        let bits = format!("{:064b}", hash(&value.to_le_bytes()));
        let (picked, rest) = bits.split_at(4);
        let at = usize::from_str_radix(picked, 2).expect("four bits");
        let rank = 1 + rest.chars().take_while(|&bit| bit == '0').count() as u32;
        made[at] = rank.max(made[at]);
    }
    made
}

/// Test 12 of a turn's list.
fn are_registers(list: &[u32]) -> bool {
    list.len() == REGISTERS && list.iter().all(|&register| register <= MOST_RANK)
}

/// And of a kept one.
fn kept_registers(kept: &[u32]) -> bool {
    kept.is_empty() || are_registers(kept)
}

/// The greater of each, or 12.
pub fn merged(kept: &[u32], list: &[u32]) -> Result<Vec<u32>, u32> {
    match kept_registers(kept) && are_registers(list) {
        true if kept.is_empty() => Ok(list.to_vec()),
        true => Ok(kept.iter().zip(list).map(|(&one, &other)| one.max(other)).collect()),
        false => Err(12),
    }
}

/// The answer to a report, and its buffer at exit.
pub fn report(call: &Report) -> (Result<usize, u32>, Vec<u32>) {
    let unchanged = |number| (Err(number), call.report.clone());
    if call.report.len() < 62 {
        return unchanged(7);
    }
    match call.kept.get(..call.given) {
        Some(kept) if kept_registers(kept) => {
            let all = if kept.is_empty() { &[0; REGISTERS][..] } else { kept };
            let counts = (0..=MOST_RANK).map(|value| all.iter().filter(|&&register| register == value).count() as u32);
            (Ok(62), counts.chain(call.report[62..].iter().copied()).collect())
        }
        _ => unchanged(12),
    }
}

#[test]
fn the_published_hashes() {
    assert_eq!(hash(b""), 0xCBF2_9CE4_8422_2325);
    assert_eq!(hash(b"a"), 0xAF63_DC4C_8601_EC8C);
    assert_eq!(hash(b"foobar"), 0x8594_4171_F739_67E8);
}
