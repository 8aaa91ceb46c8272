//! Selections.

use std::ops::RangeInclusive;
use std::slice;

use crate::{Position, Refusal, Sel, Shape, counted, raw};

/// Two ends, and what is covered between them.
#[derive(Clone, Copy, Debug, PartialEq, Eq, Hash)]
pub struct Selection {
    pub shape: Shape,
    pub sel: Sel,
}

/// The columns of a row that a selection covers: none, those from `lo` to `hi`, both of them, or all from `lo` on.
#[derive(Clone, Copy, Debug, Default, PartialEq, Eq)]
pub enum Span {
    #[default]
    Outside,
    Closed {
        lo: u32,
        hi: u32,
    },
    Open {
        lo: u32,
    },
}

/// Stack, of each: [`stack::SEL`](crate::stack::SEL).
impl Sel {
    /// Both ends at the position.
    pub fn caret(pos: Position) -> Self {
        raw::sel_caret(pos)
    }

    /// Whether both ends are at one position.
    pub fn is_caret(self) -> bool {
        raw::sel_is_caret(self)
    }

    /// The earlier end.
    pub fn start(self) -> Position {
        raw::sel_start(self)
    }

    /// The later end.
    pub fn end(self) -> Position {
        raw::sel_end(self)
    }

    /// Whether the two share even one position.
    pub fn overlaps(self, other: Self) -> bool {
        raw::sel_overlaps(self, other)
    }
}

/// Stack, of all but [`Selection::row_span`]: [`stack::SELECTION`](crate::stack::SELECTION).
impl Selection {
    /// The head; of [`Shape::Line`] it is at column 0.
    pub fn head(self) -> Position {
        raw::selection_head(self.shape.number(), self.sel).at
    }

    /// The anchor; of [`Shape::Line`] it is at column 0.
    pub fn anchor(self) -> Position {
        raw::selection_anchor(self.shape.number(), self.sel).at
    }

    /// The selection with its head at the position; the columns of [`Shape::Line`] are then 0.
    pub fn extend_to(self, pos: Position) -> Self {
        Self {
            sel: raw::selection_extend_to(self.shape.number(), self.sel, pos).sel,
            ..self
        }
    }

    /// The rows that it covers, from the first to the last.
    pub fn row_bounds(self) -> RangeInclusive<u32> {
        let rows = raw::selection_row_bounds(self.shape.number(), self.sel);
        rows.top..=rows.bottom
    }

    /// The columns of a row that it covers. Stack: [`stack::ROW_SPAN`](crate::stack::ROW_SPAN).
    pub fn row_span(self, row: u32) -> Span {
        let span = raw::row_span(self.shape.number(), self.sel, row);
        match (span.covered, span.open) {
            (false, _) => Span::Outside,
            (true, false) => Span::Closed {
                lo: span.lo,
                hi: span.hi,
            },
            (true, true) => Span::Open { lo: span.lo },
        }
    }
}

/// Writes the selections to the front of `out`, sorted by start and merged where they share even one position; answers how
/// many that is. The rest of `out` is kept. One that was merged runs forward, the others keep their ends. Refuses by 3 where
/// they are more than [`SELECTION_LIMIT`](crate::SELECTION_LIMIT) numbers, four to each, then by 9. Stack:
/// [`stack::MERGE_OVERLAPPING`](crate::stack::MERGE_OVERLAPPING).
///
/// ```
/// use winchbarn::{Position, Sel, merge_overlapping};
///
/// let at = |col| Position { row: 0, col };
/// let sels = [Sel { anchor: at(0), head: at(3) }, Sel { anchor: at(5), head: at(3) }];
/// let mut merged = [Sel::default(); 2];
/// let count = merge_overlapping(&sels, &mut merged)?;
/// assert_eq!(merged[..count], [Sel { anchor: at(0), head: at(5) }]);
/// # Ok::<(), winchbarn::Refusal>(())
/// ```
pub fn merge_overlapping(sels: &[Sel], out: &mut [Sel]) -> Result<usize, Refusal> {
    counted(raw::merge_overlapping(numbers(sels), numbers_mut(out)))
}

const NUMBERS: usize = 4;
const _: () = assert!(size_of::<Sel>() == NUMBERS * size_of::<u32>());
const _: () = assert!(align_of::<Sel>() == align_of::<u32>());

/// The selections as anchor row, anchor column, head row and head column, one after another.
fn numbers(sels: &[Sel]) -> &[u32] {
    // A `Sel` is four numbers and nothing else, as it is `repr(C)` of two `Position`s, which are `repr(C)` of two numbers.
    unsafe { slice::from_raw_parts(sels.as_ptr().cast(), NUMBERS * sels.len()) }
}

fn numbers_mut(sels: &mut [Sel]) -> &mut [u32] {
    // The same; and any four numbers are a `Sel`.
    unsafe { slice::from_raw_parts_mut(sels.as_mut_ptr().cast(), NUMBERS * sels.len()) }
}
