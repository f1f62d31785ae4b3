//! The cells of a CSV file (RFC 4180), each with its line and column. A quote that does not end, and anything behind a closing quote, is a
//! fault with its place; lines end in LF, CRLF or CR.

use std::borrow::Cow;

use crate::faults::Fault;

/// A cell: its text, and where it begins, line and character from 1.
#[derive(Clone, Debug, PartialEq, Eq)]
pub struct Cell<'a> {
    pub text: Cow<'a, str>,
    pub line: usize,
    pub column: usize,
}

/// The lines of cells of a file, one after the other; empty lines are passed over.
pub struct Cells<'a, 'f> {
    file: &'f str,
    text: &'a str,
    separator: u8,
    at: usize,
    line: usize,
    line_start: usize,
}

/// The separator that a header has: a semicolon, else a tab, else a comma. Those within quotes do not count.
pub fn separator_of(header: &str) -> u8 {
    let bare: String = header.split('"').step_by(2).collect();
    [b';', b'\t']
        .into_iter()
        .find(|&sign| bare.as_bytes().contains(&sign))
        .unwrap_or(b',')
}

impl<'a, 'f> Cells<'a, 'f> {
    /// The cells of a text; a byte-order mark before it is passed over.
    pub fn new(file: &'f str, text: &'a str) -> Cells<'a, 'f> {
        let text = text.strip_prefix('\u{FEFF}').unwrap_or(text);
        let header = text.split(['\n', '\r']).next().unwrap_or_default();
        Cells {
            file,
            text,
            separator: separator_of(header),
            at: 0,
            line: 1,
            line_start: 0,
        }
    }

    pub fn separator(&self) -> u8 {
        self.separator
    }

    /// The next line's cells, if there is a line left.
    pub fn next_line(&mut self) -> Result<Option<Vec<Cell<'a>>>, Fault> {
        while self.pass_line_end() {}
        if self.at == self.text.len() {
            return Ok(None);
        }
        let mut cells = Vec::new();
        loop {
            cells.push(self.cell()?);
            if self.byte() != Some(self.separator) {
                break;
            }
            self.at += 1;
        }
        Ok(Some(cells))
    }

    fn byte(&self) -> Option<u8> {
        self.text.as_bytes().get(self.at).copied()
    }

    /// The column of a place in this line, in characters from 1.
    fn column(&self, at: usize) -> usize {
        self.text[self.line_start..at].chars().count() + 1
    }

    /// Passes over the end of a line, if it stands here.
    fn pass_line_end(&mut self) -> bool {
        let size = match self.byte() {
            Some(b'\n') => 1,
            Some(b'\r') if self.text.as_bytes().get(self.at + 1) == Some(&b'\n') => 2,
            Some(b'\r') => 1,
            _ => return false,
        };
        self.at += size;
        self.line += 1;
        self.line_start = self.at;
        true
    }

    fn cell(&mut self) -> Result<Cell<'a>, Fault> {
        let (line, column) = (self.line, self.column(self.at));
        let text = if self.byte() == Some(b'"') {
            self.quoted(line, column)?
        } else {
            Cow::Borrowed(self.bare())
        };
        Ok(Cell { text, line, column })
    }

    /// A cell without quotes, up to the separator or the line's end.
    fn bare(&mut self) -> &'a str {
        let start = self.at;
        while self
            .byte()
            .is_some_and(|byte| byte != self.separator && byte != b'\n' && byte != b'\r')
        {
            self.at += 1;
        }
        &self.text[start..self.at]
    }

    /// A cell in quotes; two quotes within it are one. It may go over lines.
    fn quoted(&mut self, line: usize, column: usize) -> Result<Cow<'a, str>, Fault> {
        self.at += 1;
        let start = self.at;
        let mut doubled = false;
        loop {
            match self.byte() {
                None => {
                    return Err(Fault::at(
                        self.file,
                        line,
                        column,
                        "this quote does not end: close it, or take it away",
                    ))
                }
                Some(b'"') if self.text.as_bytes().get(self.at + 1) == Some(&b'"') => {
                    doubled = true;
                    self.at += 2;
                }
                Some(b'"') => break,
                Some(b'\n' | b'\r') => {
                    self.pass_line_end();
                }
                Some(_) => self.at += 1,
            }
        }
        let text = &self.text[start..self.at];
        self.at += 1;
        if self
            .byte()
            .is_some_and(|byte| byte != self.separator && byte != b'\n' && byte != b'\r')
        {
            let column = self.column(self.at);
            return Err(Fault::at(
                self.file,
                self.line,
                column,
                "the cell goes on behind its closing quote: double the quotes within a cell",
            ));
        }
        Ok(if doubled {
            Cow::Owned(text.replace("\"\"", "\""))
        } else {
            Cow::Borrowed(text)
        })
    }
}

#[cfg(test)]
mod tests {
    use super::*;

    fn lines(text: &str) -> Result<Vec<Vec<String>>, Fault> {
        let mut cells = Cells::new("t.csv", text);
        let mut all = Vec::new();
        while let Some(line) = cells.next_line()? {
            all.push(line.into_iter().map(|cell| cell.text.into_owned()).collect());
        }
        Ok(all)
    }

    #[test]
    fn quotes_and_line_ends() {
        let text = "\u{FEFF}stem;note\r\n1;\"a;\"\"b\"\"\r\nc\"\r\n\r\n2;\r3;x";
        let read = lines(text).unwrap();
        assert_eq!(
            read,
            [vec!["stem", "note"], vec!["1", "a;\"b\"\r\nc"], vec!["2", ""], vec!["3", "x"]]
        );
    }

    #[test]
    fn places_of_cells() {
        let mut cells = Cells::new("t.csv", "a,ä,b\n\n\"x\ny\",2,3\n4,5,6");
        let header = cells.next_line().unwrap().unwrap();
        assert_eq!((header[2].line, header[2].column), (1, 5));
        let second = cells.next_line().unwrap().unwrap();
        assert_eq!((second[0].line, second[0].column), (3, 1));
        assert_eq!((second[1].line, second[1].column), (4, 4));
        let third = cells.next_line().unwrap().unwrap();
        assert_eq!((third[0].line, third[0].column), (5, 1));
    }

    #[test]
    fn wrong_quotes() {
        assert_eq!(
            lines("a,b\n1,\"2\n3,4\n").unwrap_err().to_string(),
            "t.csv, line 2, column 3: this quote does not end: close it, or take it away"
        );
        assert!(lines("a,b\n1,\"2\"x\n")
            .unwrap_err()
            .to_string()
            .starts_with("t.csv, line 2, column 6: the cell goes on"));
    }

    #[test]
    fn separators() {
        assert_eq!(
            [
                separator_of("a;b,c"),
                separator_of("a\tb,c"),
                separator_of("a,b"),
                separator_of("\"a;b\",c"),
                separator_of("a")
            ],
            [b';', b'\t', b',', b',', b',']
        );
    }
}
