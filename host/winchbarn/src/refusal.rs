//! Why a call was refused.

use std::error::Error;
use std::fmt;

/// A refusal, by the names and in the order of the scope's table. Each function names those by which it refuses, in the order
/// in which it looks for them, and gives the first that holds. What was lent is then as it was.
#[non_exhaustive]
#[derive(Clone, Copy, Debug, PartialEq, Eq, Hash)]
pub enum Refusal {
    /// 1: a used length over the buffer or [`TEXT_LIMIT`](crate::TEXT_LIMIT); a value in the text that is not admitted. Where
    /// UTF-8 is written: a value that is no Unicode scalar.
    BadText,
    /// 2: a number over [`NUMBER_LIMIT`](crate::NUMBER_LIMIT): one that the edit's kind uses, items of its lists included, one
    /// of what is shifted, a box's cells or a tab width.
    TooBig,
    /// 3: a list of the edit with more than [`LIST_LIMIT`](crate::LIST_LIMIT) items, a `DeleteBlock` that spans more rows, a
    /// join that would make more joins; a payload of more than [`TEXT_LIMIT`](crate::TEXT_LIMIT) characters; selections of
    /// more than [`SELECTION_LIMIT`](crate::SELECTION_LIMIT) numbers.
    TooMany,
    /// 4: a payload with a value that no text may have; a line feed in a chunk; chunk lengths that do not sum to the payload;
    /// `InsertChar` without exactly one character; selections not in fours.
    BadPayload,
    /// 5: bytes that are not UTF-8.
    BadUtf8 {
        /// The place of the byte where the first bad sequence starts; in a line that is a place among the bytes which the
        /// digits are, two to each.
        offset: usize,
    },
    /// 6, by shifts only: a `DeleteChar` or `Replace` whose start is after its end, a `DeleteLine` whose start's row is after
    /// its end's.
    Reversed,
    /// 7, for `SplitLines` only, and not by shifts: a column with its flag set, past the end of the row at that step.
    BeyondRow,
    /// 8: the text would be longer than its buffer or [`TEXT_LIMIT`](crate::TEXT_LIMIT), an output than its slice, or a line
    /// than [`LINE_LIMIT`](crate::LINE_LIMIT).
    NoRoom,
    /// 9: the inverse is longer than the slices lent for it; the slice for merged selections is shorter than the selections
    /// given.
    NoRecord,
    /// 10: a line that is no frame, or none that the function takes; an edit that has no frame; a kind that is none.
    BadFrame,
}

impl Refusal {
    /// The refusal of this number; none where the table has no such row. The offset is that of [`Refusal::BadUtf8`].
    pub const fn of(number: u32, offset: usize) -> Option<Self> {
        Some(match number {
            1 => Self::BadText,
            2 => Self::TooBig,
            3 => Self::TooMany,
            4 => Self::BadPayload,
            5 => Self::BadUtf8 { offset },
            6 => Self::Reversed,
            7 => Self::BeyondRow,
            8 => Self::NoRoom,
            9 => Self::NoRecord,
            10 => Self::BadFrame,
            _ => return None,
        })
    }

    /// Its number, its name and what it says, in a line.
    const fn row(self) -> (u32, &'static str, &'static str) {
        match self {
            Self::BadText => (
                1,
                "BadText",
                "a used length over its buffer or 16,384, or a value that is not admitted",
            ),
            Self::TooBig => (2, "TooBig", "a number over 1,000,000"),
            Self::TooMany => (
                3,
                "TooMany",
                "a list, rows of a block, joins, a payload or selections over their limit",
            ),
            Self::BadPayload => (
                4,
                "BadPayload",
                "a payload that its kind does not admit, or selections not in fours",
            ),
            Self::BadUtf8 { .. } => (5, "BadUtf8", "bytes that are not UTF-8"),
            Self::Reversed => (6, "Reversed", "a start after its end"),
            Self::BeyondRow => (
                7,
                "BeyondRow",
                "a column with its flag set, past the end of its row",
            ),
            Self::NoRoom => (
                8,
                "NoRoom",
                "a text, an output or a line that would be too long",
            ),
            Self::NoRecord => (
                9,
                "NoRecord",
                "an inverse or a merge that has no room for what it hands back",
            ),
            Self::BadFrame => (
                10,
                "BadFrame",
                "a line that is no frame here, an edit that has none, or a kind that is none",
            ),
        }
    }

    /// Its number, from 1 to 10.
    pub const fn number(self) -> u32 {
        self.row().0
    }

    /// Its name, as the scope's table has it.
    pub const fn name(self) -> &'static str {
        self.row().1
    }

    /// What it says, in a line.
    pub const fn meaning(self) -> &'static str {
        self.row().2
    }

    /// Where the first bad sequence starts; 0 for all but [`Refusal::BadUtf8`].
    pub const fn offset(self) -> usize {
        match self {
            Self::BadUtf8 { offset } => offset,
            _ => 0,
        }
    }
}

impl fmt::Display for Refusal {
    fn fmt(&self, f: &mut fmt::Formatter<'_>) -> fmt::Result {
        let (number, name, meaning) = self.row();
        write!(f, "{number} {name}: {meaning}")?;
        match self {
            Self::BadUtf8 { offset } => write!(f, ", from offset {offset} on"),
            _ => Ok(()),
        }
    }
}

impl Error for Refusal {}
