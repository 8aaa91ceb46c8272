//! All small texts, and all small edits of each.

use winchbarn::Position;
use winchbarn::raw::{
    DELETE_BLOCK, DELETE_BLOCK_CHUNKS, DELETE_CHAR, DELETE_LINE, Edit, INSERT_BLOCK, INSERT_CHAR,
    INSERT_STR, JOIN_LINES, JOIN_LINES_SPACED, REPLACE, SPLIT_LINES,
};

use crate::calls::{Whole, at, chars};
use crate::law::row_lengths;

/// How far texts, payloads and lists go.
pub struct Bounds {
    pub letters: &'static [char],
    pub longest: usize,
    pub payloads: &'static [&'static str],
    pub chunks: &'static [&'static str],
    pub flags: &'static [u32],
    pub most_flags: usize,
    pub widest: u32,
    pub most_pads: usize,
}

pub const FEW: Bounds = Bounds {
    letters: &['a', '\n', ' '],
    longest: 2,
    payloads: &["", "b\n"],
    chunks: &["", "b"],
    flags: &[0, 2],
    most_flags: 1,
    widest: 1,
    most_pads: 1,
};

pub const MANY: Bounds = Bounds {
    longest: 4,
    payloads: &["", "b", "\n", "b\nc"],
    chunks: &["", "b", "b "],
    flags: &[0, 1],
    most_flags: 2,
    widest: 2,
    most_pads: 2,
    ..FEW
};

pub const ALL: Bounds = Bounds {
    letters: &['a', '\n', ' ', 'あ'],
    payloads: &["", "b", "\n", " ", "b\n", "\nc", "\n\n", "b\nc"],
    chunks: &["", "b", " ", "あb"],
    flags: &[0, 1, 2],
    most_flags: 3,
    most_pads: 3,
    ..MANY
};

/// All lists of up to `most` of the items.
pub fn lists<T: Clone>(items: &[T], most: usize) -> Vec<Vec<T>> {
    let mut all = vec![Vec::new()];
    let mut shorter = 0;
    for _ in 0..most {
        let end = all.len();
        for at in shorter..end {
            for item in items {
                let mut longer = all[at].clone();
                longer.push(item.clone());
                all.push(longer);
            }
        }
        shorter = end;
    }
    all
}

pub fn texts(bounds: &Bounds) -> Vec<Vec<u32>> {
    let letters: Vec<u32> = bounds.letters.iter().map(|c| u32::from(*c)).collect();
    lists(&letters, bounds.longest)
}

/// All positions in the text and a little past its rows and its longest row.
pub fn places(text: &[u32]) -> Vec<Position> {
    let lengths = row_lengths(text);
    let longest = *lengths.iter().max().expect("a row") as u32;
    let mut places = Vec::new();
    for row in rows(text) {
        places.extend((0..=longest + 1).map(|col| at(row, col)));
    }
    places
}

fn rows(text: &[u32]) -> std::ops::RangeInclusive<u32> {
    0..=row_lengths(text).len() as u32
}

/// An edit of one place.
fn placed(kind: u32, start: Position) -> Whole {
    Whole {
        edit: Edit {
            kind,
            start,
            ..Edit::default()
        },
        ..Whole::default()
    }
}

fn pairs(text: &[u32]) -> Vec<(Position, Position)> {
    let places = places(text);
    let ends = |start| places.iter().map(move |end| (start, *end));
    places.iter().copied().flat_map(ends).collect()
}

fn insertions(bounds: &Bounds, text: &[u32], visit: &mut dyn FnMut(Whole)) {
    for start in places(text) {
        for letter in bounds.letters {
            visit(Whole {
                payload: vec![u32::from(*letter)],
                ..placed(INSERT_CHAR, start)
            });
        }
        for payload in bounds.payloads {
            visit(Whole {
                payload: chars(payload),
                ..placed(INSERT_STR, start)
            });
        }
    }
}

fn deletes(text: &[u32], visit: &mut dyn FnMut(Whole)) {
    for (start, end) in pairs(text) {
        for kind in [DELETE_CHAR, DELETE_BLOCK] {
            let mut whole = placed(kind, start);
            whole.edit.end = end;
            visit(whole);
        }
    }
    for start in rows(text) {
        for end in rows(text) {
            let mut whole = placed(DELETE_LINE, at(start, u32::MAX));
            whole.edit.end = at(end, 0);
            visit(whole);
        }
    }
}

fn replaces(bounds: &Bounds, text: &[u32], visit: &mut dyn FnMut(Whole)) {
    for (start, end) in pairs(text) {
        for payload in bounds.payloads {
            let mut whole = placed(REPLACE, start);
            whole.edit.end = end;
            whole.payload = chars(payload);
            visit(whole);
        }
    }
}

fn joins(text: &[u32], visit: &mut dyn FnMut(Whole)) {
    for row in rows(text) {
        for count in 0..=3 {
            for kind in [JOIN_LINES, JOIN_LINES_SPACED] {
                let mut whole = placed(kind, at(row, 0));
                whole.edit.count = count;
                visit(whole);
            }
        }
    }
}

fn splits(bounds: &Bounds, text: &[u32], visit: &mut dyn FnMut(Whole)) {
    let columns: Vec<u32> = (0..=text.len() as u32 + 1).collect();
    let columns = lists(&columns, 2);
    let flags = lists(bounds.flags, bounds.most_flags);
    for row in rows(text) {
        for first in &columns {
            for second in &flags {
                visit(Whole {
                    first: first.clone(),
                    second: second.clone(),
                    ..placed(SPLIT_LINES, at(row, 0))
                });
            }
        }
    }
}

fn blocks(bounds: &Bounds, text: &[u32], visit: &mut dyn FnMut(Whole)) {
    for start in places(text) {
        for chunks in lists(bounds.chunks, 2) {
            visit(Whole {
                payload: chars(&chunks.concat()),
                first: chunks.iter().map(|it| it.chars().count() as u32).collect(),
                ..placed(INSERT_BLOCK, start)
            });
        }
    }
}

fn chunk_deletes(bounds: &Bounds, text: &[u32], visit: &mut dyn FnMut(Whole)) {
    let sizes: Vec<u32> = (0..=bounds.widest).collect();
    let widths = lists(&sizes, 2);
    let pads = lists(&sizes, bounds.most_pads);
    for start in places(text) {
        for first in &widths {
            for second in &pads {
                visit(Whole {
                    first: first.clone(),
                    second: second.clone(),
                    ..placed(DELETE_BLOCK_CHUNKS, start)
                });
            }
        }
    }
}

/// Visits all edits of the text that the bounds allow.
pub fn edits(bounds: &Bounds, text: &[u32], visit: &mut dyn FnMut(Whole)) {
    insertions(bounds, text, visit);
    deletes(text, visit);
    replaces(bounds, text, visit);
    joins(text, visit);
    splits(bounds, text, visit);
    blocks(bounds, text, visit);
    chunk_deletes(bounds, text, visit);
}
