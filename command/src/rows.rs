//! Rows of names, numbers and texts as they were read, each distinct string held once, and what they become: two dictionaries and the words
//! of tables.

use std::borrow::Cow;
use std::collections::HashMap;

/// The least and the greatest whole number that a term can hold.
pub const LEAST_NUMBER: i64 = -(1 << 29);
pub const MOST_NUMBER: i64 = (1 << 29) - 1;

/// A string by the order of its first coming, among names or among texts.
pub type StringId = u32;

/// An object: a name, a whole number or a text.
#[derive(Clone, Copy, Debug, PartialEq, Eq, Hash, PartialOrd, Ord)]
pub enum Object {
    Name(StringId),
    Number(i32),
    Text(StringId),
}

/// A row, and the line of its file that it was read from.
#[derive(Clone, Copy, Debug, PartialEq, Eq)]
pub struct Row {
    pub year: u16,
    pub subject: StringId,
    pub predicate: StringId,
    pub object: Object,
    pub line: u32,
}

/// Distinct strings, numbered as they come first.
#[derive(Clone, Debug, Default)]
pub struct Strings<'a> {
    ids: HashMap<Cow<'a, str>, StringId>,
    list: Vec<Cow<'a, str>>,
}

impl<'a> Strings<'a> {
    /// The string's number, a new one where it was not met before.
    pub fn id(&mut self, text: Cow<'a, str>) -> StringId {
        if let Some(&id) = self.ids.get(&text) {
            return id;
        }
        let id = self.list.len() as StringId;
        self.list.push(text.clone());
        self.ids.insert(text, id);
        id
    }

    pub fn list(&self) -> &[Cow<'a, str>] {
        &self.list
    }

    pub fn get(&self, id: StringId) -> &str {
        &self.list[id as usize]
    }
}

/// Everything that was read.
#[derive(Clone, Debug, Default)]
pub struct Rows<'a> {
    pub names: Strings<'a>,
    pub texts: Strings<'a>,
    pub rows: Vec<Row>,
}
