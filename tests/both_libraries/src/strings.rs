//! Calls over strings: numbered, looked for and asked by their numbers, as they come and damaged.

use crate::histories::Calls;
use crate::inputs::random::Random;

/// Strings to number, and the buffers for what is made of them.
#[derive(Clone, Debug)]
pub struct Number {
    pub kind: u32,
    pub bytes: Vec<u8>,
    pub ends: Vec<u32>,
    pub out: Vec<u8>,
    pub cuts: Vec<u32>,
    pub numbers: Vec<u32>,
    pub places: Vec<u32>,
}

/// A dictionary, and a string that is looked for in it.
#[derive(Clone, Debug)]
pub struct Find {
    pub kind: u32,
    pub bytes: Vec<u8>,
    pub ends: Vec<u32>,
    pub sought: Vec<u8>,
}

/// A dictionary, and a number whose string is asked for.
#[derive(Clone, Debug)]
pub struct StringOf {
    pub kind: u32,
    pub bytes: Vec<u8>,
    pub ends: Vec<u32>,
    pub number: usize,
}

const NAMES: u32 = 0;

/// Characters on both sides of every limit: of one byte to four, and before and after the surrogates.
const CHARACTERS: [&str; 11] = [
    "a",
    "b",
    "/",
    "~",
    "\u{7F}",
    "\u{80}",
    "\u{7FF}",
    "\u{800}",
    "\u{D7FF}",
    "\u{E000}",
    "\u{10000}",
];
/// Bytes that no string has: overlong, a surrogate, past the last character, cut short, and one that continues nothing.
const WRONG: [&[u8]; 6] = [
    &[0xC0, 0x80],
    &[0xE0, 0x9F, 0xBF],
    &[0xED, 0xA0, 0x80],
    &[0xF4, 0x90, 0x80, 0x80],
    &[0xE2, 0x82],
    &[0xBF],
];
/// Characters that no name has.
const NO_NAMES: [&str; 5] = [" ", "\0", "<", "`", "}"];

fn kind(random: &mut Random) -> u32 {
    random.pick(&[NAMES, NAMES, 1, 1, 2, u32::MAX])
}

/// A string, often one with a beginning in common with others.
fn drawn(random: &mut Random, kind: u32) -> Vec<u8> {
    let mut made = random.pick(&["", "a", "stem/", "https://wood.example/"]).to_string();
    (0..random.below(4)).for_each(|_| made += random.pick(&CHARACTERS));
    if made.is_empty() && kind == NAMES {
        made.push('n');
    }
    made.into_bytes()
}

/// Strings as bytes and their ends.
fn joined(strings: &[Vec<u8>]) -> (Vec<u8>, Vec<u32>) {
    let mut end = 0;
    let ends = strings.iter().map(|string| {
        end += string.len() as u32;
        end
    });
    let ends = ends.collect();
    (strings.concat(), ends)
}

/// At most so many strings to number, some of them more than once, with room that is enough or more.
fn number(random: &mut Random, most: usize) -> Number {
    let kind = kind(random);
    let mut strings: Vec<Vec<u8>> = (0..random.below(most + 1)).map(|_| drawn(random, kind)).collect();
    if !strings.is_empty() && random.chance(50) {
        strings.push(random.pick(&strings));
    }
    if random.chance(10) {
        strings.push(random.pick(&WRONG).to_vec());
    }
    if random.chance(10) {
        strings.push(random.pick(&NO_NAMES).into());
    }
    let (bytes, ends) = joined(&strings);
    let room = |random: &mut Random, least: usize| {
        let more = random.pick(&[0, 0, 1, 3]);
        random.words(least + more)
    };
    let out = room(random, bytes.len()).into_iter().map(|word| word as u8).collect();
    let [cuts, numbers, places] = [(); 3].map(|()| room(random, ends.len()));
    Number {
        kind,
        bytes,
        ends,
        out,
        cuts,
        numbers,
        places,
    }
}

/// Changes something in strings or a dictionary.
fn damage(random: &mut Random, bytes: &mut Vec<u8>, ends: &mut Vec<u32>) {
    if ends.is_empty() || bytes.is_empty() {
        return if random.chance(50) { bytes.push(b'n') } else { ends.push(0) };
    }
    let (byte, end) = (random.below(bytes.len()), random.below(ends.len()));
    match random.below(8) {
        0 => bytes[byte] = random.word() as u8,
        1 => bytes[byte] = b' ',
        2 => ends[end] = ends[end].wrapping_add(1),
        3 => ends[end] = ends[end].wrapping_sub(1),
        4 => ends[end] = random.word(),
        5 => bytes.push(b'n'),
        6 => drop(ends.pop()),
        _ => ends.insert(end, ends[end]),
    }
}

fn shortened<T>(random: &mut Random, buffer: &mut Vec<T>, enough: usize) {
    buffer.truncate(enough.saturating_sub(random.pick(&[1, 1, 2])));
}

/// Changes something in a call of numbering: strings, room or kind.
fn number_damage(random: &mut Random, call: &mut Number) {
    let (bytes, strings) = (call.bytes.len(), call.ends.len());
    match random.below(7) {
        0 => shortened(random, &mut call.out, bytes),
        1 => shortened(random, &mut call.cuts, strings),
        2 => shortened(random, &mut call.numbers, strings),
        3 => shortened(random, &mut call.places, strings),
        4 => call.kind = kind(random),
        _ => damage(random, &mut call.bytes, &mut call.ends),
    }
}

/// The dictionary that numbering left, asked for strings and numbers.
fn asked(to: &mut impl Calls, random: &mut Random, kind: u32, bytes: &[u8], ends: &[u32]) {
    let mut sought = drawn(random, kind);
    if !ends.is_empty() && random.chance(50) {
        let at = random.below(ends.len());
        let start = at.checked_sub(1).map_or(0, |before| ends[before]);
        sought = bytes.get(start as usize..ends[at] as usize).unwrap_or(&[]).to_vec();
    }
    to.find(&Find {
        kind,
        bytes: bytes.to_vec(),
        ends: ends.to_vec(),
        sought,
    });
    to.string(&StringOf {
        kind,
        bytes: bytes.to_vec(),
        ends: ends.to_vec(),
        number: random.pick(&[0, 1, ends.len().saturating_sub(1), ends.len(), u32::MAX as usize]),
    });
}

/// Numberings of at most so many strings, as they come and damaged, and their dictionaries, asked as they are and damaged.
pub fn numbered(to: &mut impl Calls, random: &mut Random, most: usize) {
    let mut call = number(random, most);
    let (answer, out, cuts) = to.number(&call);
    let (mut bytes, mut ends) = (out[..answer.bytes].to_vec(), cuts[..answer.strings].to_vec());
    asked(to, random, call.kind, &bytes, &ends);
    damage(random, &mut bytes, &mut ends);
    let other = if random.chance(20) { kind(random) } else { call.kind };
    asked(to, random, other, &bytes, &ends);
    number_damage(random, &mut call);
    to.number(&call);
}

/// Many strings with a beginning in common, from the last to the first, each twice.
pub fn many(to: &mut impl Calls, most: u32) {
    let strings: Vec<Vec<u8>> = (0..2 * most)
        .map(|at| format!("stem/{:05}", (2 * most - 1 - at) / 2).into_bytes())
        .collect();
    let (bytes, ends) = joined(&strings);
    let (out, room) = (vec![0; bytes.len()], vec![0; ends.len()]);
    let (answer, out, cuts) = to.number(&Number {
        kind: NAMES,
        bytes,
        ends,
        out,
        cuts: room.clone(),
        numbers: room.clone(),
        places: room,
    });
    assert!(
        answer.refused == 0 && answer.strings == most as usize,
        "each string is numbered once"
    );
    let (bytes, ends) = (&out[..answer.bytes], &cuts[..answer.strings]);
    for (number, found) in [(0, 0), (most / 2, most as usize / 2), (most - 1, most as usize - 1)] {
        let sought = format!("stem/{number:05}").into_bytes();
        let (bytes, ends) = (bytes.to_vec(), ends.to_vec());
        let place = to.find(&Find {
            kind: NAMES,
            bytes,
            ends,
            sought,
        });
        assert!(
            (place.refused, place.present, place.number) == (0, 1, found),
            "it stands at its number"
        );
    }
}
