//! Dictionaries of names and of texts: made of strings in any order, opened from their bytes and ends, and asked for numbers and strings.

use std::fmt::{self, Write};
use std::marker::PhantomData;
use std::str;

use crate::calls::{find, number, string, Lookup, StringKind};
use crate::refusals::Refusal;
use crate::terms::{Term, Value};

mod sealed {
    pub trait Sealed {}
    impl Sealed for super::Names {}
    impl Sealed for super::Texts {}
}

/// Of which strings a dictionary is: [`Names`] or [`Texts`]. Each has its own numbers, so one is not taken for the other.
pub trait Kind: sealed::Sealed {
    /// The kind, for a call.
    const KIND: StringKind;

    /// The term of a number.
    fn term(number: u32) -> Term;
}

/// Names, which are IRIs: not empty, and with none of the characters that an IRI in <> may not have.
#[derive(Clone, Copy, Debug, PartialEq, Eq, Hash)]
pub enum Names {}

/// Texts: any strings.
#[derive(Clone, Copy, Debug, PartialEq, Eq, Hash)]
pub enum Texts {}

impl Kind for Names {
    const KIND: StringKind = StringKind::Names;

    fn term(number: u32) -> Term {
        Term::Name(number)
    }
}

impl Kind for Texts {
    const KIND: StringKind = StringKind::Texts;

    fn term(number: u32) -> Term {
        Term::Text(number)
    }
}

/// A dictionary, lent, which the engine has found right: its strings ascend, and a string's number is its place. String i is the bytes from the end of
/// the one before it, 0 for the first, up to its own end.
///
/// ```
/// use sotjarn::{Dictionary, Lookup, Refusal, Term, Texts};
///
/// let (bytes, ends) = (b"ashoak", [3, 6]);
/// let species = Dictionary::<Texts>::open(bytes, &ends)?;
/// assert_eq!((species.len(), species.string(1), species.string(2)), (2, Some("oak"), None));
/// assert_eq!((species.find("oak"), species.find("elm")), (Lookup::At(1), Lookup::Absent(1)));
/// assert_eq!((species.term("oak"), species.term("elm")), (Some(Term::Text(1)), None));
/// assert_eq!(Dictionary::<Texts>::open(b"oakash", &ends).err(), Some(Refusal::Dictionary)); // they do not ascend
/// # Ok::<(), Refusal>(())
/// ```
#[derive(Clone, Copy, Debug, PartialEq, Eq)]
pub struct Dictionary<'a, K> {
    bytes: &'a [u8],
    ends: &'a [u32],
    kind: PhantomData<K>,
}

impl<'a, K: Kind> Dictionary<'a, K> {
    /// A dictionary that was stored, tested by the engine. Refused by 28.
    pub fn open(bytes: &'a [u8], ends: &'a [u32]) -> Result<Dictionary<'a, K>, Refusal> {
        string(K::KIND, bytes, ends, 0)?;
        Ok(Dictionary {
            bytes,
            ends,
            kind: PhantomData,
        })
    }

    /// How many strings it has.
    pub fn len(&self) -> usize {
        self.ends.len()
    }

    /// Whether it has none.
    pub fn is_empty(&self) -> bool {
        self.ends.is_empty()
    }

    /// Its bytes, to store.
    pub fn bytes(&self) -> &'a [u8] {
        self.bytes
    }

    /// Its ends, to store.
    pub fn ends(&self) -> &'a [u32] {
        self.ends
    }

    /// The string of a number, a part of the bytes; none past the last.
    pub fn string(&self, number: u32) -> Option<&'a str> {
        let at = usize::try_from(number).ok()?;
        let end = *self.ends.get(at)?;
        let start = at.checked_sub(1).map_or(0, |before| self.ends[before]);
        let part = &self.bytes[start as usize..end as usize];
        Some(str::from_utf8(part).expect("the engine has tested that it is UTF-8"))
    }

    /// All of them, by their numbers from 0 on.
    pub fn strings(&self) -> impl Iterator<Item = &'a str> + '_ {
        (0..).map_while(|number| self.string(number))
    }

    /// The number of a string, or how many come before it, by the engine's call ([`find`]). It tests the whole dictionary each time: the numbers of many
    /// strings are had at once from [`NumberedStrings`].
    pub fn find(&self, sought: &str) -> Lookup {
        find(K::KIND, self.bytes, self.ends, sought.as_bytes()).expect("the engine has found the dictionary right")
    }

    /// The term of a string, for rows and plans, if the dictionary has it.
    pub fn term(&self, sought: &str) -> Option<Term> {
        match self.find(sought) {
            Lookup::At(number) => u32::try_from(number).ok().map(K::term),
            Lookup::Absent(_) => None,
        }
    }
}

/// A dictionary made of strings in any order and as often as they come, and the number of each of them, by the engine's call ([`number`]).
///
/// ```
/// use sotjarn::{Names, NumberedStrings, Refusal, Term};
///
/// let stems = ["https://wood.example/stem/2", "https://wood.example/stem/1", "https://wood.example/stem/2"];
/// let names = NumberedStrings::<Names>::number(stems)?;
/// assert_eq!(names.numbers(), [1, 0, 1]);
/// assert_eq!(names.dictionary().string(0), Some("https://wood.example/stem/1"));
/// assert_eq!(names.terms().next(), Some(Term::Name(1)));
/// assert_eq!(NumberedStrings::<Names>::number(["stem 1"]).err(), Some(Refusal::Strings)); // no name has a blank
/// # Ok::<(), Refusal>(())
/// ```
#[derive(Clone, Debug, PartialEq, Eq)]
pub struct NumberedStrings<K> {
    bytes: Vec<u8>,
    ends: Vec<u32>,
    numbers: Vec<u32>,
    kind: PhantomData<K>,
}

impl<K: Kind> NumberedStrings<K> {
    /// Numbers strings. Refused by 26: a name that is none, more strings than [`MOST_STRINGS`](crate::MOST_STRINGS), or more bytes than a word counts.
    pub fn number<S: AsRef<str>>(strings: impl IntoIterator<Item = S>) -> Result<NumberedStrings<K>, Refusal> {
        let (mut bytes, mut ends) = (Vec::new(), Vec::new());
        for given in strings {
            bytes.extend_from_slice(given.as_ref().as_bytes());
            ends.push(u32::try_from(bytes.len()).map_err(|_| Refusal::Strings)?);
        }
        let mut made = NumberedStrings {
            bytes: vec![0; bytes.len()],
            ends: vec![0; ends.len()],
            numbers: vec![0; ends.len()],
            kind: PhantomData,
        };
        let mut places = vec![0; ends.len()];
        let sizes = number(
            K::KIND,
            &bytes,
            &ends,
            &mut made.bytes,
            &mut made.ends,
            &mut made.numbers,
            &mut places,
        )?;
        made.bytes.truncate(sizes.bytes);
        made.ends.truncate(sizes.strings);
        Ok(made)
    }

    /// The dictionary, which is right as numbering leaves it.
    pub fn dictionary(&self) -> Dictionary<'_, K> {
        Dictionary {
            bytes: &self.bytes,
            ends: &self.ends,
            kind: PhantomData,
        }
    }

    /// The number of each string given, in the order in which they came.
    pub fn numbers(&self) -> &[u32] {
        &self.numbers
    }

    /// The term of each string given, in the order in which they came.
    pub fn terms(&self) -> impl Iterator<Item = Term> + '_ {
        self.numbers.iter().map(|&number| K::term(number))
    }
}

/// What a delivered row has in a column, with its string. The order is that of [`Value`]: by strings where that goes by numbers.
#[derive(Clone, Copy, Debug, PartialEq, Eq, PartialOrd, Ord, Hash)]
pub enum Decoded<'a> {
    /// The row's branch does not bind the variable.
    Unbound,
    /// A name (an IRI).
    Name(&'a str),
    /// A whole number.
    Number(i32),
    /// A text.
    Text(&'a str),
}

impl fmt::Display for Decoded<'_> {
    /// As SPARQL writes it: a name in <>, a text in quotes; - where it is unbound.
    fn fmt(&self, f: &mut fmt::Formatter<'_>) -> fmt::Result {
        match self {
            Decoded::Unbound => f.write_str("-"),
            Decoded::Name(name) => write!(f, "<{name}>"),
            Decoded::Number(value) => value.fmt(f),
            Decoded::Text(text) => {
                f.write_char('"')?;
                text.chars().try_for_each(|c| match c {
                    '"' | '\\' => write!(f, "\\{c}"),
                    '\n' => f.write_str("\\n"),
                    '\r' => f.write_str("\\r"),
                    '\t' => f.write_str("\\t"),
                    _ => f.write_char(c),
                })?;
                f.write_char('"')
            }
        }
    }
}

/// Both dictionaries of a survey, to show rows with their strings.
///
/// ```
/// use sotjarn::{Decoded, Dictionaries, Names, NumberedStrings, Texts, Value};
///
/// let names = NumberedStrings::<Names>::number(["https://wood.example/stem/1"])?;
/// let texts = NumberedStrings::<Texts>::number(["old \"king\""])?;
/// let both = Dictionaries { names: names.dictionary(), texts: texts.dictionary() };
/// let row = both.decode_row(&[Value::Name(0), Value::Number(310), Value::Text(0), Value::Unbound]);
/// let shown: Vec<String> = row.into_iter().flatten().map(|value| value.to_string()).collect();
/// assert_eq!(shown, ["<https://wood.example/stem/1>", "310", r#""old \"king\"""#, "-"]);
/// assert_eq!(both.decode(Value::Name(1)), None); // past the last: these are not the dictionaries of such rows
/// # Ok::<(), sotjarn::Refusal>(())
/// ```
#[derive(Clone, Copy, Debug, PartialEq, Eq)]
pub struct Dictionaries<'a> {
    /// That of names.
    pub names: Dictionary<'a, Names>,
    /// That of texts.
    pub texts: Dictionary<'a, Texts>,
}

impl<'a> Dictionaries<'a> {
    /// A value with its string; none where its number is past the last of the dictionary, which rows encoded by these have nowhere.
    pub fn decode(&self, value: Value) -> Option<Decoded<'a>> {
        match value {
            Value::Unbound => Some(Decoded::Unbound),
            Value::Name(number) => self.names.string(number).map(Decoded::Name),
            Value::Number(value) => Some(Decoded::Number(value)),
            Value::Text(number) => self.texts.string(number).map(Decoded::Text),
        }
    }

    /// A row with its strings; none where one of its values has none.
    pub fn decode_row(&self, row: &[Value]) -> Option<Vec<Decoded<'a>>> {
        row.iter().map(|&value| self.decode(value)).collect()
    }
}
