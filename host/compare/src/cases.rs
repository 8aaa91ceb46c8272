//! Random calls: texts of any length, and edits of every kind.

use winchbarn::raw::{
    DELETE_BLOCK, DELETE_BLOCK_CHUNKS, DELETE_CHAR, DELETE_LINE, Edit, INSERT_BLOCK, INSERT_CHAR,
    INSERT_STR, JOIN_LINES, JOIN_LINES_SPACED, REPLACE, SPLIT_LINES,
};
use winchbarn::{Position, Sel, View};

use crate::bridge::Done;
use crate::calls::{Call, Room, Whole, at};
use crate::law::{Answer, LF, row_lengths};
use crate::random::Random;

pub const INADMISSIBLE: [u32; 10] = [
    0x0b,
    0x0c,
    0x0d,
    0x85,
    0x2028,
    0x2029,
    0xd800,
    0xdfff,
    0x11_0000,
    u32::MAX,
];

/// Numbers around their limit.
pub const EDGES: [u32; 5] = [999_999, 1_000_000, 1_000_001, 0x8000_0000, u32::MAX];

const LETTERS: [char; 16] = [
    'a',
    'b',
    'c',
    'd',
    'e',
    '0',
    '*',
    ' ',
    ' ',
    ' ',
    'é',
    'あ',
    '漢',
    '😀',
    '\0',
    '\u{10ffff}',
];

/// A text without LF.
pub fn letters(random: &mut Random, length: usize) -> Vec<u32> {
    let letter = |_| u32::from(random.pick(&LETTERS));
    (0..length).map(letter).collect()
}

pub fn text(random: &mut Random, length: usize) -> Vec<u32> {
    let row = random.pick(&[2, 4, 9, 40, 1000]);
    let mut text = letters(random, length);
    for c in &mut text {
        if random.one_in(row) {
            *c = LF;
        }
    }
    text
}

pub fn short_text(random: &mut Random) -> Vec<u32> {
    let most = random.pick(&[3, 12, 40, 200]);
    let length = random.between(0, most);
    text(random, length)
}

fn garbage(random: &mut Random, most: usize) -> Vec<u32> {
    let count = random.between(0, most);
    (0..count).map(|_| random.value()).collect()
}

/// A position in the text of these rows, or a little or far past its ends.
pub fn place(random: &mut Random, lengths: &[usize]) -> Position {
    let row = row(random, lengths);
    let length = lengths.get(row as usize).copied().unwrap_or(2);
    let col = match random.below(40) {
        0 => random.pick(&[1000, 999_999, 1_000_000]),
        1..5 => (length + random.below(3)) as u32,
        _ => random.between(0, length) as u32,
    };
    at(row, col)
}

fn row(random: &mut Random, lengths: &[usize]) -> u32 {
    match random.below(40) {
        0 => random.pick(&[1000, 999_999, 1_000_000]),
        1..5 => (lengths.len() + random.below(3)) as u32,
        _ => random.below(lengths.len()) as u32,
    }
}

pub fn sel(random: &mut Random, lengths: &[usize]) -> Sel {
    Sel {
        anchor: place(random, lengths),
        head: place(random, lengths),
    }
}

fn listed(random: &mut Random, count: usize, most: usize) -> Vec<u32> {
    (0..count).map(|_| random.between(0, most) as u32).collect()
}

/// Columns in any order or rising, and flags that may be too few or too many.
fn split_lists(random: &mut Random, length: usize) -> (Vec<u32>, Vec<u32>) {
    let columns = random.below(5);
    let past = random.pick(&[0, 0, 1]);
    let mut first = listed(random, columns, length + past);
    if random.one_in(2) {
        first.sort_unstable();
    }
    let flags = match random.below(6) {
        0 => random.below(6),
        _ => columns,
    };
    let second = (0..flags).map(|_| random.pick(&[0, 0, 1, 1, 2, 1_000_000]));
    (first, second.collect())
}

fn block_parts(random: &mut Random) -> (Vec<u32>, Vec<u32>) {
    let count = random.below(5);
    let lengths = listed(random, count, 3);
    let sum: u32 = lengths.iter().sum();
    (letters(random, sum as usize), lengths)
}

/// Widths and pads, of which there may be too few or too many.
fn cut_lists(random: &mut Random) -> (Vec<u32>, Vec<u32>) {
    let widths = random.below(5);
    let pads = match random.below(4) {
        0 => random.below(6),
        _ => widths,
    };
    let first = listed(random, widths, 4);
    (first, listed(random, pads, 3))
}

fn payload(random: &mut Random) -> Vec<u32> {
    let length = random.below(9);
    text(random, length)
}

/// An edit of this kind on a text of these rows.
pub fn whole(random: &mut Random, kind: u32, lengths: &[usize]) -> Whole {
    let start = place(random, lengths);
    let mut whole = Whole {
        edit: Edit {
            kind,
            start,
            end: at(0, 0),
            count: 0,
        },
        ..Whole::default()
    };
    match kind {
        INSERT_CHAR => whole.payload = text(random, 1),
        INSERT_STR => whole.payload = payload(random),
        DELETE_CHAR | DELETE_LINE | DELETE_BLOCK => whole.edit.end = place(random, lengths),
        JOIN_LINES | JOIN_LINES_SPACED => {
            whole.edit.count = random.pick(&[0, 1, 1, 2, 3, 7, 1_000_000]);
        }
        SPLIT_LINES => {
            let row = lengths.len().min(start.row as usize + 1) - 1;
            (whole.first, whole.second) = split_lists(random, lengths[row]);
        }
        REPLACE => {
            whole.edit.end = place(random, lengths);
            whole.payload = payload(random);
        }
        INSERT_BLOCK => (whole.payload, whole.first) = block_parts(random),
        _ => (whole.first, whole.second) = cut_lists(random),
    }
    whole
}

pub fn kind(random: &mut Random) -> u32 {
    random.below(11) as u32
}

/// Puts anything where the kind does not look.
pub fn litter(random: &mut Random, whole: &mut Whole) {
    let edit = &mut whole.edit;
    let of_rows = [DELETE_LINE, JOIN_LINES, JOIN_LINES_SPACED, SPLIT_LINES];
    if of_rows.contains(&edit.kind) {
        edit.start.col = random.value();
    }
    if ![DELETE_CHAR, DELETE_BLOCK, REPLACE].contains(&edit.kind) {
        edit.end.col = random.value();
        if edit.kind != DELETE_LINE {
            edit.end.row = random.value();
        }
    }
    if ![JOIN_LINES, JOIN_LINES_SPACED].contains(&edit.kind) {
        edit.count = random.value();
    }
    if ![INSERT_CHAR, INSERT_STR, REPLACE, INSERT_BLOCK].contains(&edit.kind) {
        whole.payload = garbage(random, 4);
    }
    if ![SPLIT_LINES, INSERT_BLOCK, DELETE_BLOCK_CHUNKS].contains(&edit.kind) {
        whole.first = garbage(random, 4);
    }
    if ![SPLIT_LINES, DELETE_BLOCK_CHUNKS].contains(&edit.kind) {
        whole.second = garbage(random, 4);
    }
}

fn view(random: &mut Random, used: usize) -> View {
    View {
        used,
        cursor: at(random.value(), random.value()),
        changes: random.pick(&[0, 1, u64::MAX, 0x1234_5678_9abc_def0]),
    }
}

/// A call on this text, with anything behind it in the buffer.
pub fn call_with(random: &mut Random, text: Vec<u32>, whole: Whole) -> Call {
    let view = view(random, text.len());
    let mut buffer = text;
    let behind = random.pick(&[0, 1, 8, 40]);
    buffer.extend(garbage(random, behind));
    Call {
        room: Room::of_demand_3(&buffer),
        buffer,
        view,
        whole,
    }
}

pub fn call(random: &mut Random, text: Vec<u32>) -> Call {
    let kind = kind(random);
    let mut whole = whole(random, kind, &row_lengths(&text));
    if random.one_in(2) {
        litter(random, &mut whole);
    }
    call_with(random, text, whole)
}

pub fn short_call(random: &mut Random) -> Call {
    let text = short_text(random);
    call(random, text)
}

/// About as much, or just one less.
fn around(random: &mut Random, enough: usize) -> usize {
    let more = random.pick(&[0, 0, 1, 2, 12, 20]);
    (enough + more).saturating_sub(usize::from(random.one_in(12)))
}

/// Makes the buffer and the room for the inverse just large enough, one short, or larger.
pub fn trim(random: &mut Random, call: &mut Call, edited: &Answer<Done>) {
    let Ok(done) = edited else {
        call.room = Room {
            payload: random.below(9),
            first: random.below(3),
            second: random.below(3),
        };
        return;
    };
    let exact = Room::of(&done.inverse);
    call.room = Room {
        payload: around(random, exact.payload),
        first: around(random, exact.first),
        second: around(random, exact.second),
    };
    let length = around(random, done.text.len()).max(call.view.used);
    call.buffer.resize_with(length, || random.value());
}
