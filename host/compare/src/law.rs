//! What document 01 says of a call, and document 02 of the box test: the refusal that the table gives, or what the original does.

use winchbarn::raw::{
    DELETE_BLOCK, DELETE_BLOCK_CHUNKS, DELETE_CHAR, DELETE_LINE, INSERT_BLOCK, INSERT_CHAR,
    INSERT_STR, JOIN_LINES, JOIN_LINES_SPACED, REPLACE, SPLIT_LINES,
};
use winchbarn::{Position, Refusal};

use crate::bridge::{self, Done};
use crate::calls::{Call, Room, Whole, at};
use crate::widths::is_wide;

pub const TEXT_LIMIT: usize = 16_384;
pub const NUMBER_LIMIT: u32 = 1_000_000;
pub const LIST_LIMIT: usize = 256;

pub const LF: u32 = 0x0a;
pub const TAB: u32 = 0x09;

/// What a call that may be refused comes to.
pub type Answer<T> = Result<T, Refusal>;

/// A refusal, by its number in the table.
pub fn refusal(number: u32) -> Refusal {
    Refusal::of(number, 0).expect("a row of the table")
}

pub fn admissible(value: u32) -> bool {
    let breaks_rows_in_ropey = matches!(value, 0x0b | 0x0c | 0x0d | 0x85 | 0x2028 | 0x2029);
    char::from_u32(value).is_some() && !breaks_rows_in_ropey
}

/// The length of each row without its LF.
pub fn row_lengths(text: &[u32]) -> Vec<usize> {
    text.split(|c| *c == LF).map(<[u32]>::len).collect()
}

pub fn clamped(lengths: &[usize], pos: Position) -> Position {
    let row = pos.row.min(lengths.len() as u32 - 1);
    at(row, pos.col.min(lengths[row as usize] as u32))
}

/// Where each character of a row ends, counted in cells.
fn cell_ends(row: &[u32], tab: u32) -> impl Iterator<Item = usize> {
    let stop = tab.max(1) as usize;
    row.iter().scan(0usize, move |end, value| {
        *end = match *value {
            TAB => (*end + 1).next_multiple_of(stop),
            value if is_wide(value) => *end + 2,
            _ => *end + 1,
        };
        Some(*end)
    })
}

/// How many cells the widest row takes.
pub fn widest(text: &[u32], tab: u32) -> usize {
    let rows = text.split(|c| *c == LF);
    let width = |row| cell_ends(row, tab).last().unwrap_or_default();
    rows.map(width).max().expect("a row")
}

/// The first row that is wider than a box, and the column of its first character whose last cell lies outside.
fn first_over(text: &[u32], cells: u32, tab: u32) -> Option<Position> {
    let outside = |end| end > cells as usize;
    for (row, characters) in (0..).zip(text.split(|c| *c == LF)) {
        if let Some(col) = cell_ends(characters, tab).position(outside) {
            return Some(at(row, col as u32));
        }
    }
    None
}

/// What the box test comes to: refusal 1, refusal 2, or an answer.
pub fn boxed(buffer: &[u32], used: usize, cells: u32, tab: u32) -> Answer<Option<Position>> {
    if bad_text(buffer, used) {
        return Err(refusal(1));
    }
    if cells > NUMBER_LIMIT || tab > NUMBER_LIMIT {
        return Err(refusal(2));
    }
    Ok(first_over(&buffer[..used], cells, tab))
}

/// Refusal 1.
pub fn bad_text(buffer: &[u32], used: usize) -> bool {
    used > buffer.len() || used > TEXT_LIMIT || !buffer[..used].iter().copied().all(admissible)
}

/// Refusal 2, with the positions that a shift is given.
fn too_big(whole: &Whole, places: &[Position]) -> bool {
    let big = |n: u32| n > NUMBER_LIMIT;
    let place = |p: Position| big(p.row) || big(p.col);
    let list = |list: &[u32]| list.iter().any(|n| big(*n));
    let edit = whole.edit;
    let of_edit = match edit.kind {
        INSERT_CHAR | INSERT_STR => place(edit.start),
        DELETE_CHAR | DELETE_BLOCK | REPLACE => place(edit.start) || place(edit.end),
        DELETE_LINE => big(edit.start.row) || big(edit.end.row),
        JOIN_LINES | JOIN_LINES_SPACED => big(edit.start.row) || big(edit.count),
        SPLIT_LINES => big(edit.start.row) || list(&whole.first) || list(&whole.second),
        INSERT_BLOCK => place(edit.start) || list(&whole.first),
        DELETE_BLOCK_CHUNKS => place(edit.start) || list(&whole.first) || list(&whole.second),
        kind => panic!("{kind} is no kind"),
    };
    of_edit || places.iter().any(|p| place(*p))
}

/// The joins that a join makes: it stops at the last row.
fn joins(text: &[u32], whole: &Whole) -> usize {
    let last_row = text.iter().filter(|c| **c == LF).count();
    let row = last_row.min(whole.edit.start.row as usize);
    (last_row - row).min(whole.edit.count.max(1) as usize)
}

/// Refusal 3.
fn too_many(text: &[u32], whole: &Whole) -> bool {
    let edit = whole.edit;
    let payload = whole.payload.len() > TEXT_LIMIT;
    let first = whole.first.len() > LIST_LIMIT;
    let second = whole.second.len() > LIST_LIMIT;
    match edit.kind {
        INSERT_CHAR | INSERT_STR | REPLACE => payload,
        DELETE_BLOCK => edit.start.row.abs_diff(edit.end.row) as usize + 1 > LIST_LIMIT,
        JOIN_LINES | JOIN_LINES_SPACED => joins(text, whole) > LIST_LIMIT,
        SPLIT_LINES | DELETE_BLOCK_CHUNKS => first || second,
        INSERT_BLOCK => payload || first,
        _ => false,
    }
}

pub fn sums_to(lengths: &[u32], payload: &[u32]) -> bool {
    lengths.iter().map(|n| u64::from(*n)).sum::<u64>() == payload.len() as u64
}

/// Refusal 4.
fn bad_payload(whole: &Whole) -> bool {
    let payload = &whole.payload;
    let inadmissible = || !payload.iter().copied().all(admissible);
    match whole.edit.kind {
        INSERT_CHAR => payload.len() != 1 || inadmissible(),
        INSERT_STR | REPLACE => inadmissible(),
        INSERT_BLOCK => payload.contains(&LF) || !sums_to(&whole.first, payload) || inadmissible(),
        _ => false,
    }
}

/// Refusals 1 to 4, and 10 for a kind that is none, which no other can be told of.
pub fn given(call: &Call, places: &[Position]) -> Answer<()> {
    let number = if call.whole.edit.kind > DELETE_BLOCK_CHUNKS {
        10
    } else if bad_text(&call.buffer, call.view.used) {
        1
    } else if too_big(&call.whole, places) {
        2
    } else if too_many(call.text(), &call.whole) {
        3
    } else if bad_payload(&call.whole) {
        4
    } else {
        return Ok(());
    };
    Err(refusal(number))
}

/// Refusal 6.
pub fn reversed(whole: &Whole) -> bool {
    let edit = whole.edit;
    match edit.kind {
        DELETE_CHAR | REPLACE => edit.start > edit.end,
        DELETE_LINE => edit.start.row > edit.end.row,
        _ => false,
    }
}

/// Refusal 7: at each step the row ends where the step before split it.
fn beyond_row(text: &[u32], whole: &Whole) -> bool {
    if whole.edit.kind != SPLIT_LINES {
        return false;
    }
    let lengths = row_lengths(text);
    let mut length = lengths[lengths.len().min(whole.edit.start.row as usize + 1) - 1];
    for (step, col) in whole.first.iter().enumerate().rev() {
        let flag = whole.second.get(step).is_some_and(|flag| *flag != 0);
        if flag && *col as usize > length {
            return true;
        }
        length = length.min(*col as usize);
    }
    false
}

/// How long a text is after a block was put in: each row that exists is padded to the column and gets its chunk.
fn length_after_block(text: &[u32], whole: &Whole) -> usize {
    let start = whole.edit.start;
    let rows = row_lengths(text).into_iter().skip(start.row as usize);
    let added = rows
        .zip(&whole.first)
        .map(|(row, chunk)| (start.col as usize).saturating_sub(row) + *chunk as usize);
    text.len() + added.sum::<usize>()
}

/// Refusals 8 and 9.
fn want_of_room(call: &Call, done: &Done) -> Answer<()> {
    if done.text.len() > call.buffer.len().min(TEXT_LIMIT) {
        return Err(refusal(8));
    }
    if !call.room.holds(Room::of(&done.inverse)) {
        return Err(refusal(9));
    }
    Ok(())
}

/// What an edit comes to where there is room enough. The original is asked only what document 01 does not refuse; a block
/// that pads past every limit is refused here already, as the original would make gigabytes of it.
pub fn edited(call: &Call) -> Answer<Done> {
    given(call, &[])?;
    if beyond_row(call.text(), &call.whole) {
        return Err(refusal(7));
    }
    if call.whole.edit.kind == INSERT_BLOCK
        && length_after_block(call.text(), &call.whole) > TEXT_LIMIT
    {
        return Err(refusal(8));
    }
    Ok(bridge::apply(call.text(), &call.whole))
}

/// The same with the room that the call lends.
pub fn fitted<'a>(call: &Call, edited: &'a Answer<Done>) -> Answer<&'a Done> {
    let done = edited.as_ref().map_err(|refusal| *refusal)?;
    want_of_room(call, done)?;
    Ok(done)
}

pub fn applied(call: &Call) -> Answer<Done> {
    let done = edited(call)?;
    want_of_room(call, &done)?;
    Ok(done)
}

/// Demand 3's kinds and conditions.
pub fn undoable(call: &Call) -> Answer<bool> {
    given(call, &[])?;
    let edit = call.whole.edit;
    let lengths = row_lengths(call.text());
    let (top, bottom) = (
        edit.start.row.min(edit.end.row) as usize,
        edit.start.row.max(edit.end.row) as usize,
    );
    let left = edit.start.col.min(edit.end.col) as usize;
    Ok(match edit.kind {
        DELETE_CHAR | REPLACE => {
            let earlier = edit.start.min(edit.end);
            clamped(&lengths, earlier) == earlier
        }
        DELETE_BLOCK => lengths
            .iter()
            .take(bottom + 1)
            .skip(top)
            .all(|length| *length >= left),
        SPLIT_LINES | DELETE_BLOCK_CHUNKS => false,
        _ => true,
    })
}
