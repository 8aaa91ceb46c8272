use std::sync::Mutex;

use crate::buffer::rope_line_char_count;
use crate::{Position, Rope};

/// What the edits change of the original's `Buffer`: the text and the change counter.
pub struct Buffer {
    pub text: Rope,
    dirty_gen: u64,
}

/// The original's view: a text behind a lock, and a cursor.
pub struct View {
    pub(crate) content: Mutex<Buffer>,
    cursor: Position,
}

impl View {
    /// A view of this text, its cursor at the start and its counter 0.
    #[expect(
        clippy::should_implement_trait,
        reason = "the original's View has this name"
    )]
    pub fn from_str(text: &str) -> Self {
        let buffer = Buffer {
            text: Rope::new(text),
            dirty_gen: 0,
        };
        Self {
            content: Mutex::new(buffer),
            cursor: Position::default(),
        }
    }

    pub fn cursor(&self) -> Position {
        self.cursor
    }

    pub fn dirty_gen(&self) -> u64 {
        self.content.lock().unwrap().dirty_gen
    }

    pub fn row_count(&self) -> usize {
        self.content.lock().unwrap().text.len_lines()
    }

    pub fn as_string(&self) -> String {
        self.content.lock().unwrap().text.to_string()
    }

    /// The length of a row without its LF; 0 past the last row.
    pub fn line_len(&self, row: usize) -> usize {
        rope_line_char_count(&self.content.lock().unwrap().text, row)
    }

    pub fn set_cursor(&mut self, pos: Position) {
        self.cursor = self.clamp_position(pos);
    }

    // This and the names of the others are from buffer.rs.
    pub fn clamp_position(&self, pos: Position) -> Position {
        let c = self.content.lock().unwrap();
        let n = c.text.len_lines();
        let last_row = n.saturating_sub(1);
        let row = pos.row.min(last_row);
        let line_chars = rope_line_char_count(&c.text, row);
        let col = pos.col.min(line_chars);
        Position::new(row, col)
    }

    pub(crate) fn dirty_gen_bump(&mut self) {
        let mut c = self.content.lock().unwrap();
        c.dirty_gen = c.dirty_gen.wrapping_add(1);
    }
}
