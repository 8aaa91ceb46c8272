//! Winchbarn's proved edit core, called from Rust.
//!
//! A text is the first `used` elements of a lent buffer: Unicode scalars but U+000B, U+000C, U+000D, U+0085, U+2028 and
//! U+2029. Its rows end at line feeds. Rows and columns count from 0, columns in characters. An inverse's payload and
//! lists are written to the front of the slices lent for them; with a payload slice as long as the buffer and
//! [`LIST_LIMIT`] in each list, every inverse has room.
//!
//! What is bad is refused ([`Refusal`]), and a refusal changes nothing that was lent. No function panics, allocates, keeps what
//! it was lent or has a state. Each needs the stack that [`stack`] says.
//!
//! ```
//! use winchbarn::{Edit, Kind, LIST_LIMIT, Position, View, apply_edit};
//!
//! let mut text = [0; 16];
//! let opening: Vec<u32> = "ab\ncd".chars().map(u32::from).collect();
//! text[..opening.len()].copy_from_slice(&opening);
//! let view = View { used: opening.len(), ..View::default() };
//!
//! let at = Position { row: 0, col: 1 };
//! let insertion = Edit { start: at, ..Edit::new(Kind::InsertStr) };
//! let (mut payload, mut first, mut second) = ([0; 16], [0; LIST_LIMIT], [0; LIST_LIMIT]);
//! let done = apply_edit(
//!     &mut text, view, insertion, &['X'.into(), '\n'.into()], &[], &[],
//!     &mut payload, &mut first, &mut second,
//! )?;
//! assert!(text[..done.view.used].iter().copied().eq("aX\nb\ncd".chars().map(u32::from)));
//! assert_eq!(done.view.cursor, Position { row: 1, col: 0 });
//!
//! let undone = apply_edit(
//!     &mut text, done.view, done.inverse,
//!     &payload[..done.payload], &first[..done.first], &second[..done.second],
//!     &mut [0; 16], &mut [0; LIST_LIMIT], &mut [0; LIST_LIMIT],
//! )?;
//! assert_eq!(text[..undone.view.used], opening);
//! # Ok::<(), winchbarn::Refusal>(())
//! ```
//!
//! # Linking
//!
//! A program links `libwinchbarn.a`, which `tests/archive.sh` makes in the repository's root. It is looked for in
//! `target/staticlib` there, or `target/native` for what is not x86-64, or where `WINCHBARN_LIB_DIR` says. Documentation and
//! `cargo check` do without it.

mod ffi;
mod frames;
mod kind;
pub mod raw;
mod refusal;
mod select;
pub mod stack;

pub use frames::{ReadEdit, read_edit, read_mark, read_text, write_mark, write_text};
pub use kind::{Kind, Shape};
pub use refusal::Refusal;
pub use select::{Selection, Span, merge_overlapping};

/// The most characters that a text or a payload may have.
pub const TEXT_LIMIT: usize = 16_384;

/// The most items that a list of an edit may have, rows that a `DeleteBlock` may span and joins that a join may make; and so
/// the room that each list of an inverse may need.
pub const LIST_LIMIT: usize = 256;

/// The largest number that an edit, its lists, and a position or selection that is shifted may have; and the most cells that a
/// box or a tab may have.
pub const NUMBER_LIMIT: u32 = 1_000_000;

/// The most digits that a line may have.
pub const LINE_LIMIT: usize = 36_864;

/// The most numbers that selections which are merged may have, four to each.
pub const SELECTION_LIMIT: usize = 4_096;

/// A row and a column in it, ordered by row, then column.
#[repr(C)]
#[derive(Clone, Copy, Debug, Default, PartialEq, Eq, PartialOrd, Ord, Hash)]
pub struct Position {
    pub row: u32,
    pub col: u32,
}

/// How much of the buffer is text, where the cursor is, and how many edits were accepted, modulo 2^64.
#[repr(C)]
#[derive(Clone, Copy, Debug, Default, PartialEq, Eq)]
pub struct View {
    pub used: usize,
    pub cursor: Position,
    pub changes: u64,
}

/// Two ends, both covered, in either order.
#[repr(C)]
#[derive(Clone, Copy, Debug, Default, PartialEq, Eq, Hash)]
pub struct Sel {
    pub anchor: Position,
    pub head: Position,
}

/// An edit's kind and numbers. Its payload and lists are lent beside it.
#[derive(Clone, Copy, Debug, PartialEq, Eq)]
pub struct Edit {
    pub kind: Kind,
    pub start: Position,
    pub end: Position,
    pub count: u32,
}

impl Edit {
    /// An edit of this kind whose numbers are all 0.
    pub const fn new(kind: Kind) -> Self {
        let origin = Position { row: 0, col: 0 };
        Self {
            kind,
            start: origin,
            end: origin,
            count: 0,
        }
    }
}

impl From<Edit> for raw::Edit {
    fn from(edit: Edit) -> Self {
        Self {
            kind: edit.kind.number(),
            start: edit.start,
            end: edit.end,
            count: edit.count,
        }
    }
}

impl TryFrom<raw::Edit> for Edit {
    type Error = Refusal;

    /// Refuses by [`Refusal::BadFrame`] where the kind is none.
    fn try_from(edit: raw::Edit) -> Result<Self, Refusal> {
        Ok(Self {
            kind: edit.kind.try_into()?,
            start: edit.start,
            end: edit.end,
            count: edit.count,
        })
    }
}

/// The view after an edit, and the edit's inverse: its numbers, and how many elements of its payload and lists were written to
/// the front of the slices lent for them.
#[derive(Clone, Copy, Debug, PartialEq, Eq)]
pub struct Applied {
    pub view: View,
    pub inverse: Edit,
    pub payload: usize,
    pub first: usize,
    pub second: usize,
}

/// Runs a script and writes what it prints to the front of `out`; answers how many bytes that is. The rest of `out` is
/// kept. What is wrong with a line is told in what is printed. Refuses by 8. Stack: [`stack::RUN_SCRIPT`].
pub fn run_script(input: &[u8], out: &mut [u8]) -> Result<usize, Refusal> {
    counted(raw::run_script(input, out))
}

/// Applies an edit to the text, writes its inverse to the front of the `out` slices and answers the view after it. Places of
/// the buffer that the text gives up become 0; those behind it, and the `out` slices behind what is written, are kept.
/// Refuses by 1, 2, 3, 4, 7, 8, 9. Stack: [`stack::APPLY_EDIT`].
#[expect(
    clippy::too_many_arguments,
    reason = "an edit is numbers beside lent slices"
)]
pub fn apply_edit(
    text: &mut [u32],
    view: View,
    edit: Edit,
    payload: &[u32],
    first: &[u32],
    second: &[u32],
    out_payload: &mut [u32],
    out_first: &mut [u32],
    out_second: &mut [u32],
) -> Result<Applied, Refusal> {
    applied(raw::apply_edit(
        text,
        view,
        edit.into(),
        payload,
        first,
        second,
        out_payload,
        out_first,
        out_second,
    ))
}

/// [`apply_edit`] on a view that is lent: it is updated where it stands, and kept where the edit is refused. Stack:
/// [`stack::APPLY_EDIT_IN`].
#[expect(
    clippy::too_many_arguments,
    reason = "an edit is numbers beside lent slices"
)]
pub fn apply_edit_in(
    text: &mut [u32],
    view: &mut View,
    edit: Edit,
    payload: &[u32],
    first: &[u32],
    second: &[u32],
    out_payload: &mut [u32],
    out_first: &mut [u32],
    out_second: &mut [u32],
) -> Result<Applied, Refusal> {
    applied(raw::apply_edit_in(
        text,
        view,
        edit.into(),
        payload,
        first,
        second,
        out_payload,
        out_first,
        out_second,
    ))
}

/// Applies the edit that a script's line is, lower-case hexadecimal without the line feed, and leaves what [`apply_edit`]
/// leaves. Refuses by 10 where the line is no frame of an edit, by 5, then by 1, 2, 3, 4, 7, 8, 9. Stack:
/// [`stack::APPLY_FRAME`].
pub fn apply_frame(
    text: &mut [u32],
    view: View,
    line: &[u8],
    out_payload: &mut [u32],
    out_first: &mut [u32],
    out_second: &mut [u32],
) -> Result<Applied, Refusal> {
    applied(raw::apply_frame(
        text,
        view,
        line,
        out_payload,
        out_first,
        out_second,
    ))
}

/// Writes an edit as a script's line, without a line feed, to the front of `out`; answers how many digits that is. The rest
/// of `out` is kept. No frame have `InsertChar`, `SplitLines` whose flags are not as many as its columns or neither 0 nor 1,
/// `InsertBlock` whose lengths do not sum to its payload, and `DeleteBlockChunks` whose pads are not as many as its widths.
/// Refuses by 10 where the edit has no frame, then 1, 8. Stack: [`stack::WRITE_EDIT`].
pub fn write_edit(
    edit: Edit,
    payload: &[u32],
    first: &[u32],
    second: &[u32],
    out: &mut [u8],
) -> Result<usize, Refusal> {
    counted(raw::write_edit(edit.into(), payload, first, second, out))
}

/// Whether the edit is sure to be taken back exactly, if it is accepted. Yes for insertions, `DeleteLine`, joins and
/// `InsertBlock`; for `DeleteChar` and `Replace` where their earlier end is in the text; for `DeleteBlock` where no row that it
/// touches is shorter than its left column. No for all else, which may still be taken back exactly, as `SplitLines` of "ab" at 1
/// is. Refuses by 1, 2, 3, 4. Stack: [`stack::UNDOABLE`].
pub fn undoable(
    text: &[u32],
    view: View,
    edit: Edit,
    payload: &[u32],
    first: &[u32],
    second: &[u32],
) -> Result<bool, Refusal> {
    let said = raw::undoable(text, view, edit.into(), payload, first, second);
    accepted(said.refusal, 0)?;
    Ok(said.yes)
}

/// The view with its cursor at the position, brought into the text as [`clamp_position`] has it; the used length and the counter
/// are as they were. Refuses by 1. Stack: [`stack::SET_CURSOR`].
pub fn set_cursor(text: &[u32], view: View, pos: Position) -> Result<View, Refusal> {
    let viewed = raw::set_cursor(text, view, pos);
    accepted(viewed.refusal, 0)?;
    Ok(viewed.view)
}

/// The position brought into the text: its row down to the last one, then its column to that row's length. Refuses by 1.
/// Stack: [`stack::CLAMP_POSITION`].
pub fn clamp_position(text: &[u32], used: usize, pos: Position) -> Result<Position, Refusal> {
    let place = raw::clamp_position(text, used, pos);
    accepted(place.refusal, 0)?;
    Ok(place.at)
}

/// The first row that is wider than a box of so many cells, and the column of its first character whose last cell lies outside;
/// `None` where all rows fit. A character takes two cells where it is Wide or Fullwidth in UAX #11, by EastAsianWidth.txt of
/// Unicode 15.0.0, and one otherwise, also where it is combining; a tab runs to the next multiple of the tab width, 0 acting as 1,
/// counted in cells from the row's start, and takes one at least; a line feed takes none. Refuses by 1, then 2. Stack: [`stack::BOX_FIT`].
///
/// ```
/// use winchbarn::{Position, box_fit};
///
/// let text: Vec<u32> = "aあ\n\tい".chars().map(u32::from).collect();
/// assert_eq!(box_fit(&text, text.len(), 6, 4), Ok(None));
/// assert_eq!(box_fit(&text, text.len(), 5, 4), Ok(Some(Position { row: 1, col: 1 })));
/// assert_eq!(box_fit(&text, text.len(), 2, 4), Ok(Some(Position { row: 0, col: 1 })));
/// ```
pub fn box_fit(
    text: &[u32],
    used: usize,
    cells: u32,
    tab: u32,
) -> Result<Option<Position>, Refusal> {
    found(raw::box_fit(text, used, cells, tab))
}

/// Where a position goes when the edit is made to the view's text; the pads of [`Kind::DeleteBlockChunks`] are left out of
/// account. `None` for [`Kind::SplitLines`], over which nothing is followed, and for no other kind. Over an accepted edit whose
/// ends are in order and whose places are in the text, other than SplitLines and DeleteBlockChunks with a pad above 0, what is
/// answered for the place of a character that stays, not a line feed, is where it stands afterwards; blocks, joins and deletes of
/// rows may name any place. Refuses by 1, 2, 3, 4, 6. Stack: [`stack::SHIFT_POSITION`].
pub fn shift_position(
    text: &[u32],
    view: View,
    edit: Edit,
    payload: &[u32],
    first: &[u32],
    second: &[u32],
    pos: Position,
) -> Result<Option<Position>, Refusal> {
    found(raw::shift_position(
        text,
        view,
        edit.into(),
        payload,
        first,
        second,
        pos,
    ))
}

/// Where both ends of a selection go when the edit is made; they are judged together and not put in order. Answers
/// `None` and refuses as [`shift_position`]. Stack: [`stack::SHIFT_SEL`].
pub fn shift_sel(
    text: &[u32],
    view: View,
    edit: Edit,
    payload: &[u32],
    first: &[u32],
    second: &[u32],
    sel: Sel,
) -> Result<Option<Sel>, Refusal> {
    let place = raw::shift_sel(text, view, edit.into(), payload, first, second, sel);
    accepted(place.refusal, 0)?;
    Ok(place.found.then_some(place.sel))
}

/// Writes the scalars of UTF-8 bytes to the front of `out`; answers how many there are. The rest of `out` is kept. Refuses by
/// 5, then 8. Stack: [`stack::DECODE`].
pub fn decode(bytes: &[u8], out: &mut [u32]) -> Result<usize, Refusal> {
    counted(raw::decode(bytes, out))
}

/// Writes scalars as UTF-8 to the front of `out`; answers how many bytes that is. The rest of `out` is kept. Refuses by 1,
/// then 8. Stack: [`stack::ENCODE`].
pub fn encode(scalars: &[u32], out: &mut [u8]) -> Result<usize, Refusal> {
    counted(raw::encode(scalars, out))
}

/// What the core's number says: nothing, or a refusal. It gives no number that is not in its table.
fn accepted(number: u32, offset: usize) -> Result<(), Refusal> {
    match number {
        0 => Ok(()),
        _ => Err(Refusal::of(number, offset).expect("a refusal of the table")),
    }
}

fn counted(answer: raw::Count) -> Result<usize, Refusal> {
    accepted(answer.refusal, answer.offset)?;
    Ok(answer.count)
}

fn applied(answer: raw::Applied) -> Result<Applied, Refusal> {
    accepted(answer.refusal, answer.offset)?;
    Ok(Applied {
        view: answer.view,
        inverse: answer.inverse.try_into().expect("an inverse has a kind"),
        payload: answer.payload,
        first: answer.first,
        second: answer.second,
    })
}

fn found(place: raw::Place) -> Result<Option<Position>, Refusal> {
    accepted(place.refusal, 0)?;
    Ok(place.found.then_some(place.at))
}
