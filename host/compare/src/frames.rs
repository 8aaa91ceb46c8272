//! Document 01's frames, written in plain Rust.

use winchbarn::raw::{
    DELETE_BLOCK, DELETE_BLOCK_CHUNKS, DELETE_CHAR, DELETE_LINE, Edit, INSERT_BLOCK, INSERT_STR,
    JOIN_LINES, JOIN_LINES_SPACED, REPLACE, SPLIT_LINES,
};
use winchbarn::{Position, Sel};

use crate::calls::Whole;
use crate::law::{Answer, refusal, sums_to};

pub const DIGIT_LIMIT: usize = 36_864;

pub const TEXT: u8 = 0x01;
pub const MARK: u8 = 0x02;

pub fn hex(bytes: &[u8]) -> Vec<u8> {
    const DIGITS: &[u8; 16] = b"0123456789abcdef";
    bytes
        .iter()
        .flat_map(|byte| [byte >> 4, byte & 15])
        .map(|half| DIGITS[half as usize])
        .collect()
}

/// The UTF-8 of scalars; refusal 1 where one is none.
pub fn encoded(scalars: &[u32]) -> Answer<Vec<u8>> {
    let string: Option<String> = scalars.iter().map(|c| char::from_u32(*c)).collect();
    string.map(String::into_bytes).ok_or(refusal(1))
}

fn number(value: u32) -> [u8; 4] {
    value.to_be_bytes()
}

fn position(pos: Position) -> [u8; 8] {
    let mut bytes = [0; 8];
    bytes[..4].copy_from_slice(&number(pos.row));
    bytes[4..].copy_from_slice(&number(pos.col));
    bytes
}

pub fn text_frame(text: &[u32]) -> Vec<u8> {
    let mut bytes = vec![TEXT];
    bytes.extend(encoded(text).expect("an admitted text"));
    bytes
}

pub fn mark_frame(sel: Sel) -> Vec<u8> {
    [&[MARK][..], &position(sel.anchor), &position(sel.head)].concat()
}

/// Whether a frame can hold the edit.
fn has_frame(whole: &Whole) -> bool {
    let pairs = whole.first.len() == whole.second.len();
    match whole.edit.kind {
        INSERT_STR | DELETE_CHAR | DELETE_LINE | DELETE_BLOCK | JOIN_LINES | JOIN_LINES_SPACED
        | REPLACE => true,
        SPLIT_LINES => pairs && whole.second.iter().all(|flag| *flag <= 1),
        INSERT_BLOCK => sums_to(&whole.first, &whole.payload),
        DELETE_BLOCK_CHUNKS => pairs,
        _ => false,
    }
}

fn delete_frame(kind: u8, edit: Edit) -> Vec<u8> {
    [
        &[0x11, kind][..],
        &position(edit.start),
        &position(edit.end),
    ]
    .concat()
}

fn join_frame(edit: Edit, flag: u8) -> Vec<u8> {
    [
        &[0x12][..],
        &number(edit.start.row),
        &number(edit.count),
        &[flag],
    ]
    .concat()
}

fn split_frame(whole: &Whole) -> Vec<u8> {
    let mut bytes = vec![0x13];
    bytes.extend(number(whole.edit.start.row));
    for (col, flag) in whole.first.iter().zip(&whole.second) {
        bytes.extend(number(*col));
        bytes.push(*flag as u8);
    }
    bytes
}

fn block_frame(whole: &Whole) -> Answer<Vec<u8>> {
    let mut bytes = vec![0x15];
    bytes.extend(position(whole.edit.start));
    let mut rest = &whole.payload[..];
    for length in &whole.first {
        let (chunk, behind) = rest.split_at(*length as usize);
        let chunk = encoded(chunk)?;
        bytes.extend(number(chunk.len() as u32));
        bytes.extend(chunk);
        rest = behind;
    }
    Ok(bytes)
}

fn chunks_frame(whole: &Whole) -> Vec<u8> {
    let mut bytes = vec![0x16];
    bytes.extend(position(whole.edit.start));
    for (width, pad) in whole.first.iter().zip(&whole.second) {
        bytes.extend(number(*width));
        bytes.extend(number(*pad));
    }
    bytes
}

/// The bytes of the edit's frame: refusal 10 where it has none, 1 where its payload is no text.
pub fn edit_frame(whole: &Whole) -> Answer<Vec<u8>> {
    if !has_frame(whole) {
        return Err(refusal(10));
    }
    let edit = whole.edit;
    let (start, end) = (position(edit.start), position(edit.end));
    Ok(match edit.kind {
        INSERT_STR => [&[0x10][..], &start, &encoded(&whole.payload)?].concat(),
        DELETE_CHAR => delete_frame(0, edit),
        DELETE_LINE => delete_frame(1, edit),
        DELETE_BLOCK => delete_frame(2, edit),
        JOIN_LINES => join_frame(edit, 0),
        JOIN_LINES_SPACED => join_frame(edit, 1),
        SPLIT_LINES => split_frame(whole),
        REPLACE => [&[0x14][..], &start, &end, &encoded(&whole.payload)?].concat(),
        INSERT_BLOCK => block_frame(whole)?,
        _ => chunks_frame(whole),
    })
}

/// The edit's line: also refusal 8 where it has too many digits.
pub fn edit_line(whole: &Whole) -> Answer<Vec<u8>> {
    let line = hex(&edit_frame(whole)?);
    if line.len() > DIGIT_LIMIT {
        return Err(refusal(8));
    }
    Ok(line)
}
