//! Document 01's frames, read in plain Rust: first by their form, then their UTF-8.

use std::str;

use winchbarn::raw::{
    DELETE_BLOCK, DELETE_BLOCK_CHUNKS, DELETE_CHAR, DELETE_LINE, Edit, INSERT_BLOCK, INSERT_STR,
    JOIN_LINES, JOIN_LINES_SPACED, REPLACE, SPLIT_LINES,
};
use winchbarn::{Position, Refusal, Sel};

use crate::calls::{Whole, at};
use crate::frames::{DIGIT_LIMIT, MARK, TEXT};
use crate::law::{Answer, refusal};

fn digit(character: u8) -> Option<u8> {
    match character {
        b'0'..=b'9' => Some(character - b'0'),
        b'a'..=b'f' => Some(character - b'a' + 10),
        _ => None,
    }
}

/// The bytes of a line, unless it has too many digits, an odd number of them, or anything else in it.
fn unhex(line: &[u8]) -> Option<Vec<u8>> {
    if line.len() > DIGIT_LIMIT || !line.len().is_multiple_of(2) {
        return None;
    }
    line.chunks_exact(2)
        .map(|pair| Some(digit(pair[0])? << 4 | digit(pair[1])?))
        .collect()
}

/// Bytes that have to be UTF-8, and where they start in their frame.
#[derive(Debug, Clone, PartialEq, Eq)]
pub struct Piece {
    at: usize,
    bytes: Vec<u8>,
}

/// A line by its form, its UTF-8 still unread.
#[derive(Debug, Clone, PartialEq, Eq)]
pub enum Form {
    Text(Piece),
    Mark(Sel),
    Edit {
        edit: Edit,
        pieces: Vec<Piece>,
        first: Vec<u32>,
        second: Vec<u32>,
    },
}

struct Reader<'a> {
    bytes: &'a [u8],
    at: usize,
}

impl Reader<'_> {
    fn take(&mut self, count: usize) -> Option<&[u8]> {
        let end = self.at.checked_add(count)?;
        let taken = self.bytes.get(self.at..end)?;
        self.at = end;
        Some(taken)
    }

    fn byte(&mut self) -> Option<u8> {
        Some(self.take(1)?[0])
    }

    /// A byte that is at most so much.
    fn byte_to(&mut self, most: u8) -> Option<u8> {
        self.byte().filter(|byte| *byte <= most)
    }

    fn number(&mut self) -> Option<u32> {
        let bytes = self.take(4)?;
        Some(u32::from_be_bytes(bytes.try_into().expect("four bytes")))
    }

    fn position(&mut self) -> Option<Position> {
        Some(at(self.number()?, self.number()?))
    }

    fn piece(&mut self, count: usize) -> Option<Piece> {
        let at = self.at;
        let bytes = self.take(count)?.to_vec();
        Some(Piece { at, bytes })
    }

    fn rest(&mut self) -> Option<Piece> {
        self.piece(self.bytes.len() - self.at)
    }

    fn done(&self) -> bool {
        self.at == self.bytes.len()
    }
}

fn plain(kind: u32, start: Position, end: Position, count: u32) -> Form {
    with_pieces(kind, start, end, count, Vec::new())
}

fn with_pieces(kind: u32, start: Position, end: Position, count: u32, pieces: Vec<Piece>) -> Form {
    Form::Edit {
        edit: Edit {
            kind,
            start,
            end,
            count,
        },
        pieces,
        first: Vec::new(),
        second: Vec::new(),
    }
}

fn delete(from: &mut Reader) -> Option<Form> {
    let kind = from.byte_to(2)?;
    let kind = [DELETE_CHAR, DELETE_LINE, DELETE_BLOCK][kind as usize];
    Some(plain(kind, from.position()?, from.position()?, 0))
}

fn join(from: &mut Reader) -> Option<Form> {
    let (row, count) = (from.number()?, from.number()?);
    let kind = [JOIN_LINES, JOIN_LINES_SPACED][from.byte_to(1)? as usize];
    Some(plain(kind, at(row, 0), at(0, 0), count))
}

/// Pairs of numbers up to the end of the frame, for a kind that has two lists.
fn pairs(
    from: &mut Reader,
    kind: u32,
    start: Position,
    second_of: fn(&mut Reader) -> Option<u32>,
) -> Option<Form> {
    let (mut first, mut second) = (Vec::new(), Vec::new());
    while !from.done() {
        first.push(from.number()?);
        second.push(second_of(from)?);
    }
    Some(Form::Edit {
        edit: Edit {
            kind,
            start,
            ..Edit::default()
        },
        pieces: Vec::new(),
        first,
        second,
    })
}

fn block(from: &mut Reader) -> Option<Form> {
    let start = from.position()?;
    let mut pieces = Vec::new();
    while !from.done() {
        let length = from.number()?;
        pieces.push(from.piece(length as usize)?);
    }
    Some(with_pieces(INSERT_BLOCK, start, at(0, 0), 0, pieces))
}

/// The form of a frame's bytes; none where they are malformed.
fn form_of_bytes(bytes: &[u8]) -> Option<Form> {
    let from = &mut Reader { bytes, at: 0 };
    let form = match from.byte()? {
        TEXT => Form::Text(from.rest()?),
        MARK => Form::Mark(Sel {
            anchor: from.position()?,
            head: from.position()?,
        }),
        0x10 => {
            let start = from.position()?;
            with_pieces(INSERT_STR, start, at(0, 0), 0, vec![from.rest()?])
        }
        0x11 => delete(from)?,
        0x12 => join(from)?,
        0x13 => {
            let start = at(from.number()?, 0);
            pairs(from, SPLIT_LINES, start, |it| it.byte_to(1).map(u32::from))?
        }
        0x14 => {
            let (start, end) = (from.position()?, from.position()?);
            with_pieces(REPLACE, start, end, 0, vec![from.rest()?])
        }
        0x15 => block(from)?,
        0x16 => {
            let start = from.position()?;
            pairs(from, DELETE_BLOCK_CHUNKS, start, |it| it.number())?
        }
        _ => return None,
    };
    from.done().then_some(form)
}

/// The form of a line without its LF.
pub fn form(line: &[u8]) -> Option<Form> {
    form_of_bytes(&unhex(line)?)
}

impl Piece {
    /// Its scalars; refusal 5 with the offset in the frame where the first bad sequence starts.
    pub fn decoded(&self) -> Answer<Vec<u32>> {
        match str::from_utf8(&self.bytes) {
            Ok(string) => Ok(string.chars().map(u32::from).collect()),
            Err(error) => Err(Refusal::BadUtf8 {
                offset: self.at + error.valid_up_to(),
            }),
        }
    }
}

/// The edit that a line is: refusal 10 where it is none, 5 where its UTF-8 is ill-formed.
pub fn read_edit(line: &[u8]) -> Answer<Whole> {
    match form(line) {
        Some(Form::Edit {
            edit,
            pieces,
            first,
            second,
        }) => whole_of(edit, &pieces, first, second),
        _ => Err(refusal(10)),
    }
}

/// The edit with its payload; a block's pieces are its chunks, and their lengths its first list.
pub fn whole_of(
    edit: Edit,
    pieces: &[Piece],
    mut first: Vec<u32>,
    second: Vec<u32>,
) -> Answer<Whole> {
    let mut payload = Vec::new();
    for piece in pieces {
        let chunk = piece.decoded()?;
        if edit.kind == INSERT_BLOCK {
            first.push(chunk.len() as u32);
        }
        payload.extend(chunk);
    }
    Ok(Whole {
        edit,
        payload,
        first,
        second,
    })
}
