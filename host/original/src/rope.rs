//! Stands in for `ropey`, with the methods that the carried files call.

use std::fmt;
use std::ops::Range;

/// A text whose rows end at LF alone.
///
/// It is one `String` with the start of each row. Counting goes over one row at most. What inserts or removes moves all that
/// stands behind and looks for the rows there again: on 12,000 characters some microseconds, where ropey's tree moves less.
/// As in ropey, an index past the end panics.
#[derive(Debug, Clone)]
pub struct Rope {
    text: String,
    rows: Vec<Start>,
}

#[derive(Debug, Clone, Copy, Default, PartialEq, Eq)]
struct Start {
    byte: usize,
    char: usize,
}

/// A part of a rope, to be printed or measured.
pub struct RopeSlice<'a>(&'a str);

impl Rope {
    pub fn new(text: &str) -> Self {
        let mut rope = Self {
            text: text.to_owned(),
            rows: vec![Start::default()],
        };
        rope.find_rows_behind(0);
        rope
    }

    /// Finds the starts of the rows behind this one, which starts where it did.
    fn find_rows_behind(&mut self, row: usize) {
        self.rows.truncate(row + 1);
        let mut start = self.rows[row];
        for line in self.text[start.byte..].split_inclusive('\n') {
            start.byte += line.len();
            start.char += line.chars().count();
            if line.ends_with('\n') {
                self.rows.push(start);
            }
        }
    }

    pub fn len_bytes(&self) -> usize {
        self.text.len()
    }

    pub fn len_chars(&self) -> usize {
        self.byte_to_char(self.len_bytes())
    }

    pub fn len_lines(&self) -> usize {
        self.rows.len()
    }

    /// Where the row starts; the row after the last one starts at the end.
    pub fn line_to_byte(&self, row: usize) -> usize {
        match row == self.len_lines() {
            true => self.len_bytes(),
            false => self.rows[row].byte,
        }
    }

    pub fn line_to_char(&self, row: usize) -> usize {
        match row == self.len_lines() {
            true => self.len_chars(),
            false => self.rows[row].char,
        }
    }

    pub fn byte_to_char(&self, byte_idx: usize) -> usize {
        let row = self.rows[self.rows.partition_point(|it| it.byte <= byte_idx) - 1];
        row.char + self.text[row.byte..byte_idx].chars().count()
    }

    fn row_of_char(&self, char_idx: usize) -> usize {
        self.rows.partition_point(|it| it.char <= char_idx) - 1
    }

    fn char_to_byte(&self, char_idx: usize) -> usize {
        let row = self.rows[self.row_of_char(char_idx)];
        let mut rest = self.text[row.byte..].chars();
        if char_idx > row.char {
            rest.nth(char_idx - row.char - 1).expect("a character");
        }
        self.len_bytes() - rest.as_str().len()
    }

    fn to_bytes(&self, chars: Range<usize>) -> Range<usize> {
        self.char_to_byte(chars.start)..self.char_to_byte(chars.end)
    }

    pub fn char(&self, char_idx: usize) -> char {
        let rest = &self.text[self.char_to_byte(char_idx)..];
        rest.chars().next().expect("a character")
    }

    /// The row with the LF that ends it.
    pub fn line(&self, row: usize) -> RopeSlice<'_> {
        self.byte_slice(self.line_to_byte(row)..self.line_to_byte(row + 1))
    }

    pub fn slice(&self, chars: Range<usize>) -> RopeSlice<'_> {
        self.byte_slice(self.to_bytes(chars))
    }

    pub fn byte_slice(&self, bytes: Range<usize>) -> RopeSlice<'_> {
        RopeSlice(&self.text[bytes])
    }

    pub fn insert(&mut self, char_idx: usize, text: &str) {
        let row = self.row_of_char(char_idx);
        self.text.insert_str(self.char_to_byte(char_idx), text);
        self.find_rows_behind(row);
    }

    pub fn insert_char(&mut self, char_idx: usize, ch: char) {
        self.insert(char_idx, ch.encode_utf8(&mut [0; 4]));
    }

    pub fn remove(&mut self, chars: Range<usize>) {
        let row = self.row_of_char(chars.start);
        self.text.replace_range(self.to_bytes(chars), "");
        self.find_rows_behind(row);
    }
}

impl RopeSlice<'_> {
    pub fn len_chars(&self) -> usize {
        self.0.chars().count()
    }
}

impl fmt::Display for Rope {
    fn fmt(&self, f: &mut fmt::Formatter<'_>) -> fmt::Result {
        f.write_str(&self.text)
    }
}

impl fmt::Display for RopeSlice<'_> {
    fn fmt(&self, f: &mut fmt::Formatter<'_>) -> fmt::Result {
        f.write_str(self.0)
    }
}
