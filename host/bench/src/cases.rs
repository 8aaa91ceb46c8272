//! The text and the edits that are measured.

use winchbarn::*;

pub const CHARACTERS: usize = 12_000;
const ROWS: u32 = 20;

/// An edit with its payload and lists.
#[derive(Clone, Debug, PartialEq, Eq)]
pub struct Whole {
    pub edit: Edit,
    pub payload: Vec<u32>,
    pub first: Vec<u32>,
    pub second: Vec<u32>,
}

/// Characters in rows of 50 to 69, the last of them cut where the count is reached.
fn in_rows(count: usize, character: impl Fn(u32, u32) -> u32) -> Vec<u32> {
    let mut text = Vec::with_capacity(count);
    for row in 0.. {
        text.extend((0..50 + row * 7 % 20).map(|col| character(row, col)));
        text.push(0x0a);
        if text.len() >= count {
            text.truncate(count);
            return text;
        }
    }
    unreachable!()
}

/// ASCII and kana mixed, in rows.
pub fn mixed_text(count: usize) -> Vec<u32> {
    in_rows(count, |row, col| {
        let kana = (row + col / 5) % 3 == 0;
        let first = if kana { 0x3042 } else { 0x61 };
        first + (row * 11 + col) % 26
    })
}

/// So many different characters from this one on, in rows that begin with a tab.
pub fn tabbed_text(count: usize, first: u32, different: u32) -> Vec<u32> {
    in_rows(count, |row, col| match col {
        0 => 0x09,
        _ => first + (row * 11 + col) % different,
    })
}

/// Kana and emoji in turn, in rows: no two neighbours stand in one range of wide characters.
pub fn jumping_text(count: usize) -> Vec<u32> {
    in_rows(count, |row, col| {
        let first = if col % 2 == 0 { 0x3041 } else { 0x1f600 };
        first + (row * 11 + col) % 80
    })
}

fn row_count(text: &[u32]) -> u32 {
    text.iter().filter(|&&value| value == 0x0a).count() as u32 + 1
}

/// One edit of each kind, in the middle of the text.
pub fn edits(text: &[u32]) -> Vec<(&'static str, Whole)> {
    let row = row_count(text) / 2;
    [
        flat_edits(row, text),
        row_edits(row),
        block_edits(row, text),
    ]
    .concat()
}

impl Whole {
    fn new(kind: Kind, start: Position, end: Position) -> Self {
        Whole {
            edit: Edit {
                start,
                end,
                ..Edit::new(kind)
            },
            payload: Vec::new(),
            first: Vec::new(),
            second: Vec::new(),
        }
    }

    fn with_payload(self, payload: &[u32]) -> Self {
        Whole {
            payload: payload.to_vec(),
            ..self
        }
    }

    fn with_lists(self, first: Vec<u32>, second: Vec<u32>) -> Self {
        Whole {
            first,
            second,
            ..self
        }
    }
}

fn flat_edits(row: u32, text: &[u32]) -> Vec<(&'static str, Whole)> {
    let here = Position { row, col: 30 };
    let below = Position {
        row: row + 1,
        col: 40,
    };
    let insertion = Whole::new(Kind::InsertStr, here, here);
    let hundred = &text[..100];
    vec![
        (
            "InsertChar",
            Whole::new(Kind::InsertChar, here, here).with_payload(&text[..1]),
        ),
        ("InsertStr of 1", insertion.clone().with_payload(&text[..1])),
        ("InsertStr of 100", insertion.with_payload(hundred)),
        (
            "Delete Char, over two rows",
            Whole::new(Kind::DeleteChar, here, below),
        ),
        (
            "Delete Line, one row",
            Whole::new(Kind::DeleteLine, here, here),
        ),
        (
            "Replace, over two rows by 100",
            Whole::new(Kind::Replace, here, below).with_payload(hundred),
        ),
    ]
}

fn row_edits(row: u32) -> Vec<(&'static str, Whole)> {
    let start = Position { row, col: 0 };
    let joins = |kind| {
        let mut whole = Whole::new(kind, start, start);
        whole.edit.count = ROWS;
        whole
    };
    let columns = (1..=ROWS).map(|i| 2 * i).collect();
    let split = Whole::new(Kind::SplitLines, start, start);
    vec![
        ("JoinLines of 20", joins(Kind::JoinLines)),
        ("JoinLines of 20, spaced", joins(Kind::JoinLinesSpaced)),
        ("SplitLines of 20", split.with_lists(columns, Vec::new())),
    ]
}

/// The column of the insertion is one that some rows do not reach; every second cut has a pad.
fn block_edits(row: u32, text: &[u32]) -> Vec<(&'static str, Whole)> {
    let at = |down, col| Position {
        row: row + down,
        col,
    };
    let tens = vec![10; ROWS as usize];
    let pads = (0..ROWS).map(|i| i % 2 * 3).collect();
    let chunks = text[..10].repeat(ROWS as usize);
    vec![
        (
            "Delete Block, 20 rows",
            Whole::new(Kind::DeleteBlock, at(0, 20), at(ROWS - 1, 29)),
        ),
        (
            "InsertBlock, 20 rows",
            Whole::new(Kind::InsertBlock, at(0, 60), at(0, 60))
                .with_payload(&chunks)
                .with_lists(tens.clone(), Vec::new()),
        ),
        (
            "DeleteBlockChunks, 20 rows",
            Whole::new(Kind::DeleteBlockChunks, at(0, 30), at(0, 30)).with_lists(tens, pads),
        ),
    ]
}
