//! Random calls whose sizes lie around document 01's limits.

use winchbarn::raw::{
    DELETE_BLOCK, DELETE_BLOCK_CHUNKS, DELETE_CHAR, DELETE_LINE, Edit, INSERT_BLOCK, INSERT_CHAR,
    INSERT_STR, JOIN_LINES, JOIN_LINES_SPACED, REPLACE, SPLIT_LINES,
};

use crate::calls::{Call, Whole, at};
use crate::cases::{call, call_with, letters, text, whole};
use crate::law::{LF, LIST_LIMIT, TEXT_LIMIT, row_lengths};
use crate::random::Random;

/// The number, or one or two beside it.
fn about(random: &mut Random, number: usize) -> usize {
    number - 2 + random.below(5)
}

/// A text that is as long as a text may be, or longer.
fn full_text(random: &mut Random) -> Call {
    let length = about(random, TEXT_LIMIT);
    let text = text(random, length);
    call(random, text)
}

/// A payload that just fills the text, as far as nothing is cut.
fn filled(random: &mut Random) -> Call {
    let length = random.pick(&[0, 3, 300, 8_000, 12_000, 16_380]);
    let opening = text(random, length);
    let rows = row_lengths(&opening);
    let kind = random.pick(&[INSERT_STR, REPLACE]);
    let mut whole = whole(random, kind, &rows);
    let added = about(random, TEXT_LIMIT) - length;
    whole.payload = text(random, added);
    call_with(random, opening, whole)
}

/// A block whose padding fills the text.
fn padded(random: &mut Random) -> Call {
    let opening = letters(random, 3);
    let col = about(random, TEXT_LIMIT - 5) as u32;
    let chunk = random.below(5);
    let whole = Whole {
        edit: Edit {
            kind: INSERT_BLOCK,
            start: at(0, col),
            ..Edit::default()
        },
        payload: letters(random, chunk),
        first: vec![chunk as u32],
        second: Vec::new(),
    };
    call_with(random, opening, whole)
}

/// A payload as long as one may be, or longer.
fn full_payload(random: &mut Random) -> Call {
    let length = random.pick(&[0, 1, 5, 100]);
    let opening = text(random, length);
    let kind = random.pick(&[INSERT_CHAR, INSERT_STR, REPLACE, INSERT_BLOCK]);
    let mut whole = whole(random, kind, &row_lengths(&opening));
    let length = about(random, TEXT_LIMIT);
    whole.payload = letters(random, length);
    if kind == INSERT_BLOCK {
        whole.first = vec![length as u32 - 7, 7];
    }
    call_with(random, opening, whole)
}

/// So many rows of no, one or two characters.
fn in_rows(random: &mut Random, rows: usize) -> Vec<u32> {
    let mut row = || {
        let length = random.below(3);
        letters(random, length)
    };
    let rows: Vec<Vec<u32>> = (0..rows).map(|_| row()).collect();
    rows.join(&LF)
}

/// Lists as long as they may be, or longer, over fewer or more rows than that.
fn full_lists(random: &mut Random) -> Call {
    let rows = random.pick(&[1, 40, 255, 256, 257, 300]);
    let opening = in_rows(random, rows);
    let kind = random.pick(&[SPLIT_LINES, INSERT_BLOCK, DELETE_BLOCK_CHUNKS]);
    let mut whole = whole(random, kind, &row_lengths(&opening));
    let items = about(random, LIST_LIMIT);
    if kind == INSERT_BLOCK {
        whole.payload = letters(random, items);
        whole.first = vec![1; items];
    } else {
        let other = about(random, LIST_LIMIT);
        let beside = random.pick(&[0, 1, items, other]);
        whole.first = vec![random.pick(&[0, 1]); items];
        whole.second = vec![random.pick(&[0, 1]); beside];
        if random.one_in(4) {
            std::mem::swap(&mut whole.first, &mut whole.second);
        }
    }
    call_with(random, opening, whole)
}

/// About as many rows as may be joined.
fn full_join(random: &mut Random) -> Call {
    let rows = random.between(254, 261);
    let opening = in_rows(random, rows);
    let mut whole = Whole::default();
    whole.edit.kind = random.pick(&[JOIN_LINES, JOIN_LINES_SPACED]);
    whole.edit.start.row = random.pick(&[0, 0, 1, 2, 200]);
    whole.edit.count = random.pick(&[0, 200, 255, 256, 257, 258, 1_000_000]);
    call_with(random, opening, whole)
}

/// A block of about as many rows as one may span.
fn full_span(random: &mut Random) -> Call {
    let length = random.pick(&[0, 10, 600]);
    let opening = text(random, length);
    let span = about(random, LIST_LIMIT - 1) as u32;
    let top = random.pick(&[0, 3, 200, 999_744, 999_745, 999_746]);
    let left = random.below(3) as u32;
    let mut ends = [at(top, left), at(top + span, left + random.below(3) as u32)];
    if random.one_in(2) {
        ends.reverse();
    }
    let mut whole = Whole::default();
    whole.edit.kind = DELETE_BLOCK;
    [whole.edit.start, whole.edit.end] = ends;
    call_with(random, opening, whole)
}

/// An inverse about as long as the text may be.
fn full_record(random: &mut Random) -> Call {
    let length = about(random, TEXT_LIMIT - 2);
    let opening = text(random, length);
    let mut whole = Whole::default();
    whole.edit.kind = random.pick(&[DELETE_CHAR, DELETE_LINE, REPLACE]);
    whole.edit.start = at(0, random.pick(&[0, 1]));
    whole.edit.end = at(1_000_000, 1_000_000);
    call_with(random, opening, whole)
}

/// A text as long as those that are worked on, with an edit anywhere.
pub fn long_text(random: &mut Random) -> Call {
    let length = random.between(11_900, 12_100);
    let text = text(random, length);
    call(random, text)
}

const LIMITS: [fn(&mut Random) -> Call; 8] = [
    full_text,
    filled,
    padded,
    full_payload,
    full_lists,
    full_join,
    full_span,
    full_record,
];

pub fn at_limit(random: &mut Random) -> Call {
    random.pick(&LIMITS)(random)
}
