//! The box test as plain Rust: no proofs, and no refusals.

use std::cmp::Ordering;

use compare::widths::RANGES;
use winchbarn::Position;

const LF: u32 = 0x0a;
const TAB: u32 = 0x09;

/// The first row that is wider than a box, and the column of its first character whose last cell lies outside.
pub fn first_over(text: &[u32], cells: u32, tab: u32) -> Option<Position> {
    let stop = tab.max(1);
    let (mut row, mut col, mut cell) = (0, 0, 0);
    for &value in text {
        if value == LF {
            (row, col, cell) = (row + 1, 0, 0);
            continue;
        }
        cell = match value {
            TAB => cell - cell % stop + stop,
            0..0x1100 => cell + 1,
            _ => cell + 1 + u32::from(is_wide(value)),
        };
        if cell > cells {
            return Some(Position { row, col });
        }
        col += 1;
    }
    None
}

/// Whether a character is Wide or Fullwidth, by a search in the table.
fn is_wide(value: u32) -> bool {
    let search = RANGES.binary_search_by(|&(first, last)| {
        if last < value {
            Ordering::Less
        } else if first > value {
            Ordering::Greater
        } else {
            Ordering::Equal
        }
    });
    search.is_ok()
}
