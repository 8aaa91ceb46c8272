//! The functions of `include/winchbarn.h` on slices, with its numbers and records as they are.
//!
//! The functions of the crate's root are these, with kinds and refusals as enums and selections as [`Sel`]. Here a number that is
//! no kind can be handed in, and selections that are not in fours; and an answer shows all its fields.

use crate::{Kind, Position, Sel, View, ffi};

/// [`Kind::InsertChar`]
pub const INSERT_CHAR: u32 = Kind::InsertChar.number();
/// [`Kind::InsertStr`]
pub const INSERT_STR: u32 = Kind::InsertStr.number();
/// [`Kind::DeleteChar`]
pub const DELETE_CHAR: u32 = Kind::DeleteChar.number();
/// [`Kind::DeleteLine`]
pub const DELETE_LINE: u32 = Kind::DeleteLine.number();
/// [`Kind::DeleteBlock`]
pub const DELETE_BLOCK: u32 = Kind::DeleteBlock.number();
/// [`Kind::JoinLines`]
pub const JOIN_LINES: u32 = Kind::JoinLines.number();
/// [`Kind::JoinLinesSpaced`]
pub const JOIN_LINES_SPACED: u32 = Kind::JoinLinesSpaced.number();
/// [`Kind::SplitLines`]
pub const SPLIT_LINES: u32 = Kind::SplitLines.number();
/// [`Kind::Replace`]
pub const REPLACE: u32 = Kind::Replace.number();
/// [`Kind::InsertBlock`]
pub const INSERT_BLOCK: u32 = Kind::InsertBlock.number();
/// [`Kind::DeleteBlockChunks`]
pub const DELETE_BLOCK_CHUNKS: u32 = Kind::DeleteBlockChunks.number();

/// An edit's numbers, `winchbarn_edit`. The kind may be any number.
#[repr(C)]
#[derive(Clone, Copy, Debug, Default, PartialEq, Eq)]
pub struct Edit {
    pub kind: u32,
    pub start: Position,
    pub end: Position,
    pub count: u32,
}

/// How much was written, `winchbarn_count`. A refusal has count 0.
#[repr(C)]
#[derive(Clone, Copy, Debug, Default, PartialEq, Eq)]
pub struct Count {
    pub refusal: u32,
    pub offset: usize,
    pub count: usize,
}

/// The view after an edit, and the edit's inverse, `winchbarn_applied`. A refusal has the view as it was given, and zeros for
/// the rest, but for `offset` under 5.
#[repr(C)]
#[derive(Clone, Copy, Debug, Default, PartialEq, Eq)]
pub struct Applied {
    pub refusal: u32,
    pub offset: usize,
    pub view: View,
    pub inverse: Edit,
    pub payload: usize,
    pub first: usize,
    pub second: usize,
}

/// The view with its cursor set, `winchbarn_viewed`. A refusal has the view as it was given.
#[repr(C)]
#[derive(Clone, Copy, Debug, Default, PartialEq, Eq)]
pub struct Viewed {
    pub refusal: u32,
    pub view: View,
}

/// The edit that a line is, and how much of its payload and lists was written, `winchbarn_frame`. A refusal has zeros for the
/// rest, but for `offset` under 5.
#[repr(C)]
#[derive(Clone, Copy, Debug, Default, PartialEq, Eq)]
pub struct Frame {
    pub refusal: u32,
    pub offset: usize,
    pub edit: Edit,
    pub payload: usize,
    pub first: usize,
    pub second: usize,
}

/// A position, `winchbarn_place`; zeros where there is none.
#[repr(C)]
#[derive(Clone, Copy, Debug, Default, PartialEq, Eq)]
pub struct Place {
    pub refusal: u32,
    pub found: bool,
    pub at: Position,
}

/// A selection, `winchbarn_sel_place`; zeros where there is none.
#[repr(C)]
#[derive(Clone, Copy, Debug, Default, PartialEq, Eq)]
pub struct SelPlace {
    pub refusal: u32,
    pub found: bool,
    pub sel: Sel,
}

/// The columns of a row that are covered, `winchbarn_span`. What is not said is 0.
#[repr(C)]
#[derive(Clone, Copy, Debug, Default, PartialEq, Eq)]
pub struct Span {
    pub refusal: u32,
    pub covered: bool,
    pub open: bool,
    pub lo: u32,
    pub hi: u32,
}

/// The first and the last row of a selection, `winchbarn_rows`. A refusal has zeros.
#[repr(C)]
#[derive(Clone, Copy, Debug, Default, PartialEq, Eq)]
pub struct Rows {
    pub refusal: u32,
    pub top: u32,
    pub bottom: u32,
}

/// Yes or no, `winchbarn_said`. A refusal says no.
#[repr(C)]
#[derive(Clone, Copy, Debug, Default, PartialEq, Eq)]
pub struct Said {
    pub refusal: u32,
    pub yes: bool,
}

// Each call below is sound: a slice reference is what the header asks of a pointer with its length. It is aligned and not null,
// also where it is empty; its elements can be read, and written where it is mutable; and what is mutable overlaps nothing else.
// A reference to a view is the same of one view.

pub fn run_script(input: &[u8], out: &mut [u8]) -> Count {
    unsafe { ffi::winchbarn_run_script(input.as_ptr(), input.len(), out.as_mut_ptr(), out.len()) }
}

#[expect(
    clippy::too_many_arguments,
    reason = "an edit is numbers beside lent slices"
)]
pub fn apply_edit(
    text: &mut [u32],
    view: View,
    edit: Edit,
    payload: &[u32],
    first: &[u32],
    second: &[u32],
    out_payload: &mut [u32],
    out_first: &mut [u32],
    out_second: &mut [u32],
) -> Applied {
    unsafe {
        ffi::winchbarn_apply_edit(
            text.as_mut_ptr(),
            text.len(),
            view,
            edit,
            payload.as_ptr(),
            payload.len(),
            first.as_ptr(),
            first.len(),
            second.as_ptr(),
            second.len(),
            out_payload.as_mut_ptr(),
            out_payload.len(),
            out_first.as_mut_ptr(),
            out_first.len(),
            out_second.as_mut_ptr(),
            out_second.len(),
        )
    }
}

#[expect(
    clippy::too_many_arguments,
    reason = "an edit is numbers beside lent slices"
)]
pub fn apply_edit_in(
    text: &mut [u32],
    view: &mut View,
    edit: Edit,
    payload: &[u32],
    first: &[u32],
    second: &[u32],
    out_payload: &mut [u32],
    out_first: &mut [u32],
    out_second: &mut [u32],
) -> Applied {
    unsafe {
        ffi::winchbarn_apply_edit_in(
            text.as_mut_ptr(),
            text.len(),
            view,
            edit,
            payload.as_ptr(),
            payload.len(),
            first.as_ptr(),
            first.len(),
            second.as_ptr(),
            second.len(),
            out_payload.as_mut_ptr(),
            out_payload.len(),
            out_first.as_mut_ptr(),
            out_first.len(),
            out_second.as_mut_ptr(),
            out_second.len(),
        )
    }
}

pub fn apply_frame(
    text: &mut [u32],
    view: View,
    line: &[u8],
    out_payload: &mut [u32],
    out_first: &mut [u32],
    out_second: &mut [u32],
) -> Applied {
    unsafe {
        ffi::winchbarn_apply_frame(
            text.as_mut_ptr(),
            text.len(),
            view,
            line.as_ptr(),
            line.len(),
            out_payload.as_mut_ptr(),
            out_payload.len(),
            out_first.as_mut_ptr(),
            out_first.len(),
            out_second.as_mut_ptr(),
            out_second.len(),
        )
    }
}

pub fn write_edit(
    edit: Edit,
    payload: &[u32],
    first: &[u32],
    second: &[u32],
    out: &mut [u8],
) -> Count {
    unsafe {
        ffi::winchbarn_write_edit(
            edit,
            payload.as_ptr(),
            payload.len(),
            first.as_ptr(),
            first.len(),
            second.as_ptr(),
            second.len(),
            out.as_mut_ptr(),
            out.len(),
        )
    }
}

pub fn write_text(text: &[u32], out: &mut [u8]) -> Count {
    unsafe { ffi::winchbarn_write_text(text.as_ptr(), text.len(), out.as_mut_ptr(), out.len()) }
}

pub fn write_mark(mark: Sel, out: &mut [u8]) -> Count {
    unsafe { ffi::winchbarn_write_mark(mark, out.as_mut_ptr(), out.len()) }
}

pub fn read_edit(
    line: &[u8],
    out_payload: &mut [u32],
    out_first: &mut [u32],
    out_second: &mut [u32],
) -> Frame {
    unsafe {
        ffi::winchbarn_read_edit(
            line.as_ptr(),
            line.len(),
            out_payload.as_mut_ptr(),
            out_payload.len(),
            out_first.as_mut_ptr(),
            out_first.len(),
            out_second.as_mut_ptr(),
            out_second.len(),
        )
    }
}

pub fn read_text(line: &[u8], out: &mut [u32]) -> Count {
    unsafe { ffi::winchbarn_read_text(line.as_ptr(), line.len(), out.as_mut_ptr(), out.len()) }
}

pub fn read_mark(line: &[u8]) -> SelPlace {
    unsafe { ffi::winchbarn_read_mark(line.as_ptr(), line.len()) }
}

pub fn undoable(
    text: &[u32],
    view: View,
    edit: Edit,
    payload: &[u32],
    first: &[u32],
    second: &[u32],
) -> Said {
    unsafe {
        ffi::winchbarn_undoable(
            text.as_ptr(),
            text.len(),
            view,
            edit,
            payload.as_ptr(),
            payload.len(),
            first.as_ptr(),
            first.len(),
            second.as_ptr(),
            second.len(),
        )
    }
}

pub fn set_cursor(text: &[u32], view: View, pos: Position) -> Viewed {
    unsafe { ffi::winchbarn_set_cursor(text.as_ptr(), text.len(), view, pos) }
}

pub fn clamp_position(text: &[u32], used: usize, pos: Position) -> Place {
    unsafe { ffi::winchbarn_clamp_position(text.as_ptr(), text.len(), used, pos) }
}

pub fn box_fit(text: &[u32], used: usize, cells: u32, tab: u32) -> Place {
    unsafe { ffi::winchbarn_box_fit(text.as_ptr(), text.len(), used, cells, tab) }
}

pub fn shift_position(
    text: &[u32],
    view: View,
    edit: Edit,
    payload: &[u32],
    first: &[u32],
    second: &[u32],
    pos: Position,
) -> Place {
    unsafe {
        ffi::winchbarn_shift_position(
            text.as_ptr(),
            text.len(),
            view,
            edit,
            payload.as_ptr(),
            payload.len(),
            first.as_ptr(),
            first.len(),
            second.as_ptr(),
            second.len(),
            pos,
        )
    }
}

pub fn shift_sel(
    text: &[u32],
    view: View,
    edit: Edit,
    payload: &[u32],
    first: &[u32],
    second: &[u32],
    sel: Sel,
) -> SelPlace {
    unsafe {
        ffi::winchbarn_shift_sel(
            text.as_ptr(),
            text.len(),
            view,
            edit,
            payload.as_ptr(),
            payload.len(),
            first.as_ptr(),
            first.len(),
            second.as_ptr(),
            second.len(),
            sel,
        )
    }
}

pub fn merge_overlapping(sels: &[u32], out: &mut [u32]) -> Count {
    unsafe {
        ffi::winchbarn_merge_overlapping(sels.as_ptr(), sels.len(), out.as_mut_ptr(), out.len())
    }
}

pub fn sel_caret(pos: Position) -> Sel {
    unsafe { ffi::winchbarn_sel_caret(pos) }
}

pub fn sel_is_caret(sel: Sel) -> bool {
    unsafe { ffi::winchbarn_sel_is_caret(sel) }
}

pub fn sel_start(sel: Sel) -> Position {
    unsafe { ffi::winchbarn_sel_start(sel) }
}

pub fn sel_end(sel: Sel) -> Position {
    unsafe { ffi::winchbarn_sel_end(sel) }
}

pub fn sel_overlaps(sel: Sel, other: Sel) -> bool {
    unsafe { ffi::winchbarn_sel_overlaps(sel, other) }
}

pub fn selection_head(kind: u32, sel: Sel) -> Place {
    unsafe { ffi::winchbarn_selection_head(kind, sel) }
}

pub fn selection_anchor(kind: u32, sel: Sel) -> Place {
    unsafe { ffi::winchbarn_selection_anchor(kind, sel) }
}

pub fn selection_extend_to(kind: u32, sel: Sel, pos: Position) -> SelPlace {
    unsafe { ffi::winchbarn_selection_extend_to(kind, sel, pos) }
}

pub fn selection_row_bounds(kind: u32, sel: Sel) -> Rows {
    unsafe { ffi::winchbarn_selection_row_bounds(kind, sel) }
}

pub fn row_span(kind: u32, sel: Sel, row: u32) -> Span {
    unsafe { ffi::winchbarn_row_span(kind, sel, row) }
}

pub fn decode(bytes: &[u8], out: &mut [u32]) -> Count {
    unsafe { ffi::winchbarn_decode(bytes.as_ptr(), bytes.len(), out.as_mut_ptr(), out.len()) }
}

pub fn encode(scalars: &[u32], out: &mut [u8]) -> Count {
    unsafe { ffi::winchbarn_encode(scalars.as_ptr(), scalars.len(), out.as_mut_ptr(), out.len()) }
}
