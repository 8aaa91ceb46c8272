//! The edits on a flat text as plain Rust: no proofs, and no refusals, since everything is clamped.

use std::ops::Range;

use winchbarn::Position;

const LF: u32 = 0x0a;
const SPACE: u32 = 0x20;

#[derive(Clone, Debug, PartialEq, Eq)]
pub enum Edit {
    InsertChar {
        at: Position,
        ch: u32,
    },
    InsertStr {
        at: Position,
        text: Vec<u32>,
    },
    DeleteChar {
        start: Position,
        end: Position,
    },
    DeleteLine {
        start_row: u32,
        end_row: u32,
    },
    DeleteBlock {
        start: Position,
        end: Position,
    },
    JoinLines {
        row: u32,
        count: u32,
        spaced: bool,
    },
    SplitLines {
        row: u32,
        columns: Vec<u32>,
        flags: Vec<bool>,
    },
    Replace {
        start: Position,
        end: Position,
        text: Vec<u32>,
    },
    InsertBlock {
        at: Position,
        chunks: Vec<Vec<u32>>,
    },
    DeleteBlockChunks {
        at: Position,
        widths: Vec<u32>,
        pads: Vec<u32>,
    },
}

#[derive(Clone, Debug, Default, PartialEq, Eq)]
pub struct Plain {
    pub text: Vec<u32>,
    pub cursor: Position,
    pub changes: u64,
}

impl Plain {
    /// Applies an edit and answers its inverse.
    pub fn apply(&mut self, edit: &Edit) -> Edit {
        self.changes = self.changes.wrapping_add(1);
        match edit {
            Edit::InsertChar { at, ch } => self.insert(*at, &[*ch]),
            Edit::InsertStr { at, text } => self.insert(*at, text),
            Edit::DeleteChar { start, end } => self.delete_chars(*start, *end),
            Edit::DeleteLine { start_row, end_row } => self.delete_rows(*start_row, *end_row),
            Edit::DeleteBlock { start, end } => self.delete_block(*start, *end),
            Edit::JoinLines { row, count, spaced } => self.join(*row, *count, *spaced),
            Edit::SplitLines {
                row,
                columns,
                flags,
            } => self.split(*row, columns, flags),
            Edit::Replace { start, end, text } => self.replace(*start, *end, text),
            Edit::InsertBlock { at, chunks } => self.insert_block(*at, chunks),
            Edit::DeleteBlockChunks { at, widths, pads } => self.delete_chunks(*at, widths, pads),
        }
    }

    fn insert(&mut self, at: Position, inserted: &[u32]) -> Edit {
        let (start, end) = self.put(at, inserted);
        Edit::DeleteChar { start, end }
    }

    fn delete_chars(&mut self, start: Position, end: Position) -> Edit {
        let (start, text) = self.cut(start, end);
        self.cursor = locate(&self.text, start).0;
        Edit::InsertStr { at: start, text }
    }

    fn replace(&mut self, start: Position, end: Position, with: &[u32]) -> Edit {
        let (start, text) = self.cut(start, end);
        let (start, end) = self.put(start, with);
        Edit::Replace { start, end, text }
    }

    /// Puts characters in; answers where they begin and end.
    fn put(&mut self, at: Position, inserted: &[u32]) -> (Position, Position) {
        let (start, offset) = locate(&self.text, at);
        self.text.splice(offset..offset, inserted.iter().copied());
        self.cursor = end_of(start, inserted);
        (start, self.cursor)
    }

    /// Cuts characters out; answers the earlier end as it was given, and them.
    fn cut(&mut self, start: Position, end: Position) -> (Position, Vec<u32>) {
        let (start, end) = (start.min(end), start.max(end));
        let (from, to) = (locate(&self.text, start).1, locate(&self.text, end).1);
        (start, self.text.drain(from..to.max(from)).collect())
    }

    fn delete_rows(&mut self, start_row: u32, end_row: u32) -> Edit {
        let (lo, first) = row_clamped(&self.text, start_row.min(end_row));
        let (_, last) = row_clamped(&self.text, start_row.max(end_row));
        let (cut, at) = if last.end < self.text.len() {
            (first.start..last.end + 1, Position { row: lo, col: 0 })
        } else if lo > 0 {
            let (row, above) = row_clamped(&self.text, lo - 1);
            let col = above.len() as u32;
            (above.end..self.text.len(), Position { row, col })
        } else {
            (0..self.text.len(), Position::default())
        };
        self.cursor = Position {
            row: at.row,
            col: 0,
        };
        let text = self.text.drain(cut).collect();
        Edit::InsertStr { at, text }
    }

    fn delete_block(&mut self, start: Position, end: Position) -> Edit {
        let (top, bottom) = (start.row.min(end.row), start.row.max(end.row));
        let (left, right) = (start.col.min(end.col), start.col.max(end.col));
        let widths = vec![right - left + 1; (bottom - top + 1) as usize];
        self.delete_chunks(
            Position {
                row: top,
                col: left,
            },
            &widths,
            &[],
        )
    }

    fn delete_chunks(&mut self, at: Position, widths: &[u32], pads: &[u32]) -> Edit {
        let col = at.col as usize;
        let mut row = row_at(&self.text, at.row);
        let mut read = row.as_ref().map_or(self.text.len(), |range| range.start);
        let mut write = read;
        let mut chunks = Vec::with_capacity(widths.len());
        for (i, &width) in widths.iter().enumerate() {
            let Some(range) = row else {
                chunks.push(Vec::new());
                continue;
            };
            let pad = pads.get(i).map_or(0, |&pad| pad as usize);
            let from = range.start + col.saturating_sub(pad).min(range.len());
            let to = range.start + (col + width as usize).min(range.len());
            chunks.push(self.text[range.start + col.min(range.len())..to].to_vec());
            self.text.copy_within(read..from, write);
            write += from - read;
            read = to;
            row = row_after(&self.text, range.end);
        }
        self.close(write, read);
        self.cursor = locate(&self.text, at).0;
        Edit::InsertBlock { at, chunks }
    }

    fn insert_block(&mut self, at: Position, chunks: &[Vec<u32>]) -> Edit {
        let col = at.col as usize;
        let mut row = row_at(&self.text, at.row);
        let start = row.as_ref().map_or(self.text.len(), |range| range.start);
        let mut read = start;
        let mut filled = Vec::new();
        let mut pads = vec![0; chunks.len()];
        for (chunk, pad) in chunks.iter().zip(&mut pads) {
            let Some(range) = row else { break };
            let place = range.start + col.min(range.len());
            filled.extend_from_slice(&self.text[read..place]);
            let missing = col - (place - range.start);
            filled.resize(filled.len() + missing, SPACE);
            filled.extend_from_slice(chunk);
            *pad = missing as u32;
            read = place;
            row = row_after(&self.text, range.end);
        }
        self.text.splice(start..read, filled);
        self.cursor = locate(&self.text, at).0;
        let widths = chunks.iter().map(|chunk| chunk.len() as u32).collect();
        Edit::DeleteBlockChunks { at, widths, pads }
    }

    fn join(&mut self, row: u32, count: u32, spaced: bool) -> Edit {
        let (row, joined) = row_clamped(&self.text, row);
        let (mut write, mut read) = (joined.end, joined.end);
        let (mut columns, mut flags) = (Vec::new(), Vec::new());
        for _ in 0..count.max(1) {
            let Some(next) = row_after(&self.text, read) else {
                break;
            };
            let space = spaced && write > joined.start && !next.is_empty();
            columns.push((write - joined.start) as u32);
            flags.push(space);
            if space {
                self.text[write] = SPACE;
                write += 1;
            }
            self.text.copy_within(next.clone(), write);
            write += next.len();
            read = next.end;
        }
        self.close(write, read);
        self.cursor = Position { row, col: 0 };
        Edit::SplitLines {
            row,
            columns,
            flags,
        }
    }

    fn split(&mut self, row: u32, columns: &[u32], flags: &[bool]) -> Edit {
        let (row, range) = row_clamped(&self.text, row);
        let mut len = range.len();
        for (i, &column) in columns.iter().enumerate().rev() {
            len = len.min(column as usize);
            let at = range.start + len;
            let takes_space = flags.get(i).is_some_and(|&flag| flag);
            if takes_space && self.text.get(at) == Some(&SPACE) {
                self.text[at] = LF;
            } else {
                self.text.insert(at, LF);
            }
        }
        self.cursor = Position { row, col: 0 };
        let spaced = flags.contains(&true);
        let count = columns.len() as u32;
        Edit::JoinLines { row, count, spaced }
    }

    /// Moves what stands from `read` on down to `write`.
    fn close(&mut self, write: usize, read: usize) {
        self.text.drain(write..read);
    }
}

/// Whether every value may stand in a text.
pub fn all_admissible(values: &[u32]) -> bool {
    values
        .iter()
        .fold(true, |all, &value| all & admissible(value))
}

fn admissible(value: u32) -> bool {
    let scalar = (value < 0xd800) | ((0xe000..=0x10_ffff).contains(&value));
    let breaks_rows =
        (0x0b..=0x0d).contains(&value) | (value == 0x85) | (0x2028..=0x2029).contains(&value);
    scalar & !breaks_rows
}

/// The row that begins at an offset, without its LF.
fn row_from(text: &[u32], start: usize) -> Range<usize> {
    let len = text[start..].iter().position(|&value| value == LF);
    start..len.map_or(text.len(), |len| start + len)
}

/// The row behind the one that ends at an offset.
fn row_after(text: &[u32], end: usize) -> Option<Range<usize>> {
    (end < text.len()).then(|| row_from(text, end + 1))
}

fn row_at(text: &[u32], row: u32) -> Option<Range<usize>> {
    let (found, range) = row_clamped(text, row);
    (found == row).then_some(range)
}

/// The row, or the last one, and its number.
fn row_clamped(text: &[u32], row: u32) -> (u32, Range<usize>) {
    let mut range = row_from(text, 0);
    for found in 0..row {
        match row_after(text, range.end) {
            Some(next) => range = next,
            None => return (found, range),
        }
    }
    (row, range)
}

/// The position clamped, and its offset.
pub fn locate(text: &[u32], at: Position) -> (Position, usize) {
    let (row, range) = row_clamped(text, at.row);
    let col = range.len().min(at.col as usize);
    (
        Position {
            row,
            col: col as u32,
        },
        range.start + col,
    )
}

/// Where characters end that begin at a position.
fn end_of(start: Position, inserted: &[u32]) -> Position {
    let breaks = inserted.iter().filter(|&&value| value == LF).count() as u32;
    let tail = inserted
        .iter()
        .rev()
        .take_while(|&&value| value != LF)
        .count() as u32;
    Position {
        row: start.row + breaks,
        col: if breaks == 0 { start.col + tail } else { tail },
    }
}
