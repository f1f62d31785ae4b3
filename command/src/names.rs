//! Cells as parts of names, and names as people read them.

use std::borrow::Cow;

/// Whether an IRI may have the character (SPARQL 1.1 [139]); % is written as one that it may not have, so that what was encoded can be told.
fn stays(character: char) -> bool {
    character > ' ' && !matches!(character, '<' | '>' | '"' | '{' | '}' | '|' | '^' | '`' | '\\' | '%')
}

/// A cell as a part of a name: what an IRI may not have is written by its bytes, %20 for a space.
pub fn encoded(text: &str) -> Cow<'_, str> {
    if text.chars().all(stays) {
        return Cow::Borrowed(text);
    }
    let mut name = String::new();
    for character in text.chars() {
        if stays(character) {
            name.push(character);
        } else {
            let mut bytes = [0; 4];
            for byte in character.encode_utf8(&mut bytes).bytes() {
                name.push_str(&format!("%{byte:02X}"));
            }
        }
    }
    Cow::Owned(name)
}

/// The cell that `encoded` made a part of a name of; the part itself where it was not made so.
pub fn decoded(name: &str) -> Cow<'_, str> {
    if !name.contains('%') {
        return Cow::Borrowed(name);
    }
    let mut bytes = Vec::new();
    let mut rest = name.as_bytes();
    while let Some((&first, behind)) = rest.split_first() {
        let digits = behind
            .get(..2)
            .and_then(|two| std::str::from_utf8(two).ok())
            .filter(|_| first == b'%');
        match digits.and_then(|two| u8::from_str_radix(two, 16).ok()) {
            Some(byte) => {
                bytes.push(byte);
                rest = &behind[2..];
            }
            None => {
                bytes.push(first);
                rest = behind;
            }
        }
    }
    match String::from_utf8(bytes) {
        Ok(text) if encoded(&text) == name => Cow::Owned(text),
        _ => Cow::Borrowed(name),
    }
}

#[cfg(test)]
mod tests {
    use super::*;

    #[test]
    fn there_and_back() {
        for text in [
            "Rot Buche",
            "100 %",
            "a%20b",
            "<b>",
            "Föhre",
            "",
            "\u{1F332} x",
            "%",
            "%zz",
            "a\tb",
        ] {
            assert_eq!(decoded(&encoded(text)), text);
        }
        assert_eq!(encoded("Rot Buche"), "Rot%20Buche");
        assert_eq!(decoded("%41"), "%41"); // not what encoding gives
    }
}
