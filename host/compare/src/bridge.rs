//! The original, called with the core's numbers and slices.

use original::MotionKind;
use winchbarn::raw::{
    DELETE_BLOCK, DELETE_BLOCK_CHUNKS, DELETE_CHAR, DELETE_LINE, Edit, INSERT_BLOCK, INSERT_CHAR,
    INSERT_STR, JOIN_LINES, JOIN_LINES_SPACED, REPLACE, SPLIT_LINES,
};
use winchbarn::{Position, Sel};

use crate::calls::{Whole, at};

/// What an edit that is accepted leaves and returns.
#[derive(Clone, Debug, PartialEq, Eq)]
pub struct Done {
    pub text: Vec<u32>,
    pub cursor: Position,
    /// How far the change counter went.
    pub changes: u64,
    pub inverse: Whole,
}

pub fn string(scalars: &[u32]) -> String {
    scalars
        .iter()
        .map(|c| char::from_u32(*c).expect("a scalar"))
        .collect()
}

fn scalars(string: &str) -> Vec<u32> {
    string.chars().map(u32::from).collect()
}

pub fn place(pos: Position) -> original::Position {
    original::Position::new(pos.row as usize, pos.col as usize)
}

fn number(value: usize) -> u32 {
    value.try_into().expect("a 32-bit number")
}

fn numbers(values: &[usize]) -> Vec<u32> {
    values.iter().copied().map(number).collect()
}

fn sizes(values: &[u32]) -> Vec<usize> {
    values.iter().map(|value| *value as usize).collect()
}

pub fn place_back(pos: original::Position) -> Position {
    at(number(pos.row), number(pos.col))
}

pub fn sel(sel: Sel) -> original::Sel {
    original::Sel::new(place(sel.anchor), place(sel.head))
}

pub fn sel_back(sel: original::Sel) -> Sel {
    Sel {
        anchor: place_back(sel.anchor),
        head: place_back(sel.head),
    }
}

fn chunks(payload: &[u32], lengths: &[u32]) -> Vec<String> {
    let mut rest = payload;
    let mut chunk = |length: &u32| {
        let (chunk, behind) = rest.split_at(*length as usize);
        rest = behind;
        string(chunk)
    };
    lengths.iter().map(&mut chunk).collect()
}

fn range(edit: Edit, kind: MotionKind) -> original::Edit {
    original::Edit::DeleteRange {
        start: place(edit.start),
        end: place(edit.end),
        kind,
    }
}

fn join(edit: Edit, with_space: bool) -> original::Edit {
    original::Edit::JoinLines {
        row: edit.start.row as usize,
        count: edit.count as usize,
        with_space,
    }
}

fn split(whole: &Whole) -> original::Edit {
    original::Edit::SplitLines {
        row: whole.edit.start.row as usize,
        cols: sizes(&whole.first),
        inserted_spaces: whole.second.iter().map(|flag| *flag != 0).collect(),
    }
}

/// The edit in the original's form. Refusals 2 to 4 do not hold of it.
pub fn edit(whole: &Whole) -> original::Edit {
    let edit = whole.edit;
    let at = place(edit.start);
    match edit.kind {
        INSERT_CHAR => original::Edit::InsertChar {
            at,
            ch: char::from_u32(whole.payload[0]).expect("a scalar"),
        },
        INSERT_STR => original::Edit::InsertStr {
            at,
            text: string(&whole.payload),
        },
        DELETE_CHAR => range(edit, MotionKind::Char),
        DELETE_LINE => range(edit, MotionKind::Line),
        DELETE_BLOCK => range(edit, MotionKind::Block),
        JOIN_LINES => join(edit, false),
        JOIN_LINES_SPACED => join(edit, true),
        SPLIT_LINES => split(whole),
        REPLACE => original::Edit::Replace {
            start: at,
            end: place(edit.end),
            with: string(&whole.payload),
        },
        INSERT_BLOCK => original::Edit::InsertBlock {
            at,
            chunks: chunks(&whole.payload, &whole.first),
        },
        DELETE_BLOCK_CHUNKS => original::Edit::DeleteBlockChunks {
            at,
            widths: sizes(&whole.first),
            pads: sizes(&whole.second),
        },
        kind => panic!("{kind} is no kind"),
    }
}

fn numbered(kind: u32, start: original::Position, end: original::Position) -> Edit {
    Edit {
        kind,
        start: place_back(start),
        end: place_back(end),
        count: 0,
    }
}

fn placed(kind: u32, start: original::Position) -> Edit {
    numbered(kind, start, original::Position::default())
}

fn in_row(kind: u32, row: usize) -> Edit {
    placed(kind, original::Position::new(row, 0))
}

fn numbers_of(edit: &original::Edit) -> Edit {
    match edit {
        original::Edit::InsertChar { at, .. } => placed(INSERT_CHAR, *at),
        original::Edit::InsertStr { at, .. } => placed(INSERT_STR, *at),
        original::Edit::DeleteRange { start, end, kind } => {
            let kind = match kind {
                MotionKind::Char => DELETE_CHAR,
                MotionKind::Line => DELETE_LINE,
                MotionKind::Block => DELETE_BLOCK,
            };
            numbered(kind, *start, *end)
        }
        original::Edit::JoinLines {
            row,
            count,
            with_space,
        } => Edit {
            count: number(*count),
            ..in_row(
                [JOIN_LINES, JOIN_LINES_SPACED][usize::from(*with_space)],
                *row,
            )
        },
        original::Edit::SplitLines { row, .. } => in_row(SPLIT_LINES, *row),
        original::Edit::Replace { start, end, .. } => numbered(REPLACE, *start, *end),
        original::Edit::InsertBlock { at, .. } => placed(INSERT_BLOCK, *at),
        original::Edit::DeleteBlockChunks { at, .. } => placed(DELETE_BLOCK_CHUNKS, *at),
    }
}

fn payload_of(edit: &original::Edit) -> Vec<u32> {
    match edit {
        original::Edit::InsertChar { ch, .. } => vec![u32::from(*ch)],
        original::Edit::InsertStr { text, .. } => scalars(text),
        original::Edit::Replace { with, .. } => scalars(with),
        original::Edit::InsertBlock { chunks, .. } => scalars(&chunks.concat()),
        _ => Vec::new(),
    }
}

fn lists_of(edit: &original::Edit) -> (Vec<u32>, Vec<u32>) {
    match edit {
        original::Edit::SplitLines {
            cols,
            inserted_spaces,
            ..
        } => {
            let flags = inserted_spaces.iter().map(|flag| u32::from(*flag));
            (numbers(cols), flags.collect())
        }
        original::Edit::InsertBlock { chunks, .. } => {
            let lengths: Vec<usize> = chunks.iter().map(|it| it.chars().count()).collect();
            (numbers(&lengths), Vec::new())
        }
        original::Edit::DeleteBlockChunks { widths, pads, .. } => (numbers(widths), numbers(pads)),
        _ => (Vec::new(), Vec::new()),
    }
}

/// The original's edit in numbers and lists. What its kind does not use is 0 or empty.
fn whole(edit: &original::Edit) -> Whole {
    let (first, second) = lists_of(edit);
    Whole {
        edit: numbers_of(edit),
        payload: payload_of(edit),
        first,
        second,
    }
}

/// Where the original puts the cursor of a view of this text.
pub fn set_cursor(text: &[u32], pos: Position) -> Position {
    let mut view = original::View::from_str(&string(text));
    view.set_cursor(place(pos));
    place_back(view.cursor())
}

/// What the original makes of an admitted text by an edit that document 01 does not refuse.
pub fn apply(text: &[u32], whole_edit: &Whole) -> Done {
    let mut view = original::View::from_str(&string(text));
    let inverse = view.apply_edit(edit(whole_edit));
    Done {
        text: scalars(&view.as_string()),
        cursor: place_back(view.cursor()),
        changes: view.dirty_gen(),
        inverse: whole(&inverse),
    }
}
