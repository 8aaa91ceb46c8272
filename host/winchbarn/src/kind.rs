//! What an edit does, and what a selection covers.

use crate::Refusal;

/// What an edit does. The comment of each kind names what it uses of the edit's numbers, payload and lists; the rest is not
/// read. A place is brought into the text as [`clamp_position`](crate::clamp_position) has it.
#[repr(u32)]
#[derive(Clone, Copy, Debug, PartialEq, Eq, Hash)]
pub enum Kind {
    /// Puts one character, the payload, in at `start`, brought into the text.
    InsertChar = 0,
    /// Puts the payload in at `start`, brought into the text.
    InsertStr = 1,
    /// Deletes the characters from the earlier of `start` and `end` up to the later, both brought into the text.
    DeleteChar = 2,
    /// Deletes the rows between `start.row` and `end.row`, these two included, both brought into the text.
    DeleteLine = 3,
    /// Deletes the rectangle with the corners `start` and `end`, both of them in it, as far as there are such rows and columns.
    DeleteBlock = 4,
    /// Joins `start.row`, brought into the text, with the next row, `count` times, or once for 0; it stops at the last row.
    JoinLines = 5,
    /// The same, with a space put between two parts that are both non-empty.
    JoinLinesSpaced = 6,
    /// Splits `start.row`, brought into the text, at the columns of the first list, last first. The second list says of each whether
    /// a space that stands there goes: 0, or not; where it has no item, 0. With 0 the column is brought into the row.
    SplitLines = 7,
    /// Deletes as [`Kind::DeleteChar`], then puts the payload in at the earlier of `start` and `end`, brought into what is left.
    Replace = 8,
    /// Puts a chunk into each row from `start.row` down, at `start.col`, up to which a shorter row is filled with spaces; rows that
    /// are not there are passed over. The payload is the chunks, one behind another, the first list their lengths.
    InsertBlock = 9,
    /// Cuts each row from `start.row` down, as far as it is there, from `start.col` less its pad up to `start.col` and its width. The
    /// first list has the widths, the second the pads; where it has no item, 0.
    DeleteBlockChunks = 10,
}

/// What a selection covers between its ends.
#[repr(u32)]
#[derive(Clone, Copy, Debug, PartialEq, Eq, Hash)]
pub enum Shape {
    /// The characters from one to the other.
    Char = 0,
    /// The rows, whole. Columns are not read.
    Line = 1,
    /// The rectangle whose corners they are.
    Block = 2,
}

impl Kind {
    /// All of them, each at the place of its number.
    pub const ALL: [Self; 11] = [
        Self::InsertChar,
        Self::InsertStr,
        Self::DeleteChar,
        Self::DeleteLine,
        Self::DeleteBlock,
        Self::JoinLines,
        Self::JoinLinesSpaced,
        Self::SplitLines,
        Self::Replace,
        Self::InsertBlock,
        Self::DeleteBlockChunks,
    ];

    /// Its number in C.
    pub const fn number(self) -> u32 {
        self as u32
    }
}

impl Shape {
    /// All of them, each at the place of its number.
    pub const ALL: [Self; 3] = [Self::Char, Self::Line, Self::Block];

    /// Its number in C.
    pub const fn number(self) -> u32 {
        self as u32
    }
}

/// The item at the place of its number; what is none is refused as the core refuses it.
fn numbered<T: Copy>(all: &[T], number: u32) -> Result<T, Refusal> {
    let place = usize::try_from(number).map_err(|_| Refusal::BadFrame)?;
    all.get(place).copied().ok_or(Refusal::BadFrame)
}

impl TryFrom<u32> for Kind {
    type Error = Refusal;

    /// Refuses by [`Refusal::BadFrame`] where the number is no kind.
    fn try_from(number: u32) -> Result<Self, Refusal> {
        numbered(&Self::ALL, number)
    }
}

impl TryFrom<u32> for Shape {
    type Error = Refusal;

    /// Refuses by [`Refusal::BadFrame`] where the number is no shape.
    fn try_from(number: u32) -> Result<Self, Refusal> {
        numbered(&Self::ALL, number)
    }
}
