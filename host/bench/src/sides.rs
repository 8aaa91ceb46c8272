//! The core's edits as the other sides take them.

use winchbarn::*;

use crate::cases::Whole;
use crate::plain;

/// The edit as plain Rust has it.
pub fn plain_edit(whole: &Whole) -> plain::Edit {
    let Edit {
        kind, start, end, ..
    } = whole.edit;
    let text = || whole.payload.clone();
    match kind {
        Kind::InsertChar => plain::Edit::InsertChar {
            at: start,
            ch: whole.payload[0],
        },
        Kind::InsertStr => plain::Edit::InsertStr {
            at: start,
            text: text(),
        },
        Kind::DeleteChar => plain::Edit::DeleteChar { start, end },
        Kind::DeleteLine => plain::Edit::DeleteLine {
            start_row: start.row,
            end_row: end.row,
        },
        Kind::DeleteBlock => plain::Edit::DeleteBlock { start, end },
        Kind::Replace => plain::Edit::Replace {
            start,
            end,
            text: text(),
        },
        _ => plain_edit_of_rows(whole),
    }
}

fn plain_edit_of_rows(whole: &Whole) -> plain::Edit {
    let Edit {
        kind, start, count, ..
    } = whole.edit;
    let row = start.row;
    match kind {
        Kind::JoinLines | Kind::JoinLinesSpaced => plain::Edit::JoinLines {
            row,
            count,
            spaced: kind == Kind::JoinLinesSpaced,
        },
        Kind::SplitLines => plain::Edit::SplitLines {
            row,
            columns: whole.first.clone(),
            flags: whole.second.iter().map(|&flag| flag != 0).collect(),
        },
        Kind::InsertBlock => plain::Edit::InsertBlock {
            at: start,
            chunks: chunks(whole),
        },
        Kind::DeleteBlockChunks => plain::Edit::DeleteBlockChunks {
            at: start,
            widths: whole.first.clone(),
            pads: whole.second.clone(),
        },
        flat => unreachable!("{flat:?} is not of rows"),
    }
}

fn chunks(whole: &Whole) -> Vec<Vec<u32>> {
    let mut rest = whole.payload.as_slice();
    let mut chunk = |&length: &u32| {
        let (chunk, behind) = rest.split_at(length as usize);
        rest = behind;
        chunk.to_vec()
    };
    whole.first.iter().map(&mut chunk).collect()
}

/// The plain edit as the original has it.
pub fn original_edit(edit: plain::Edit) -> original::Edit {
    use original::{Edit, MotionKind};
    let row = |row| Position { row, col: 0 };
    match edit {
        plain::Edit::InsertChar { at, ch } => Edit::InsertChar {
            at: original_position(at),
            ch: character(ch),
        },
        plain::Edit::InsertStr { at, text } => Edit::InsertStr {
            at: original_position(at),
            text: string(&text),
        },
        plain::Edit::DeleteChar { start, end } => delete(start, end, MotionKind::Char),
        plain::Edit::DeleteLine { start_row, end_row } => {
            delete(row(start_row), row(end_row), MotionKind::Line)
        }
        plain::Edit::DeleteBlock { start, end } => delete(start, end, MotionKind::Block),
        plain::Edit::Replace { start, end, text } => Edit::Replace {
            start: original_position(start),
            end: original_position(end),
            with: string(&text),
        },
        of_rows => original_edit_of_rows(of_rows),
    }
}

fn original_edit_of_rows(edit: plain::Edit) -> original::Edit {
    use original::Edit;
    match edit {
        plain::Edit::JoinLines { row, count, spaced } => Edit::JoinLines {
            row: row as usize,
            count: count as usize,
            with_space: spaced,
        },
        plain::Edit::SplitLines {
            row,
            columns,
            flags,
        } => Edit::SplitLines {
            row: row as usize,
            cols: sizes(&columns),
            inserted_spaces: flags,
        },
        plain::Edit::InsertBlock { at, chunks } => Edit::InsertBlock {
            at: original_position(at),
            chunks: chunks.iter().map(|chunk| string(chunk)).collect(),
        },
        plain::Edit::DeleteBlockChunks { at, widths, pads } => Edit::DeleteBlockChunks {
            at: original_position(at),
            widths: sizes(&widths),
            pads: sizes(&pads),
        },
        flat => unreachable!("{flat:?} has no rows"),
    }
}

fn delete(start: Position, end: Position, kind: original::MotionKind) -> original::Edit {
    original::Edit::DeleteRange {
        start: original_position(start),
        end: original_position(end),
        kind,
    }
}

pub fn original_position(at: Position) -> original::Position {
    original::Position::new(at.row as usize, at.col as usize)
}

pub fn string(scalars: &[u32]) -> String {
    scalars.iter().map(|&value| character(value)).collect()
}

fn character(value: u32) -> char {
    char::from_u32(value).expect("a scalar")
}

fn sizes(list: &[u32]) -> Vec<usize> {
    list.iter().map(|&item| item as usize).collect()
}
