//! The row helpers at the end of the original's buffer.rs, taken over from it.

use crate::Rope;

/// The byte index where the row's content ends. The original floors this to a character's start, since ropey also knows
/// separators of several bytes; LF, the one that document 01 admits, has one byte.
fn rope_line_content_end(rope: &Rope, row: usize) -> usize {
    if row + 1 >= rope.len_lines() {
        return rope.len_bytes();
    }
    rope.line_to_byte(row + 1).saturating_sub(1)
}

pub fn rope_line_str(rope: &Rope, row: usize) -> String {
    let start = rope.line_to_byte(row);
    rope.byte_slice(start..rope_line_content_end(rope, row))
        .to_string()
}

pub fn rope_line_char_count(rope: &Rope, row: usize) -> usize {
    if row >= rope.len_lines() {
        return 0;
    }
    let end = rope_line_content_end(rope, row);
    rope.byte_to_char(end)
        .saturating_sub(rope.byte_to_char(rope.line_to_byte(row)))
}

pub fn pos_to_char_idx(rope: &Rope, row: usize, col: usize) -> usize {
    let row = row.min(rope.len_lines().saturating_sub(1));
    let line_start = rope.line_to_char(row);
    let line_char_count = rope_line_char_count(rope, row);
    line_start + col.min(line_char_count)
}
