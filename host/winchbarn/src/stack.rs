//! The stack that a call needs, in bytes, from the frame of the function that makes it on: what is measured on x86-64 and
//! AArch64, and some more. `tests/c/stack.c` in the repository makes calls of each function with just that much.

const KB: usize = 1024;

/// [`run_script`](crate::run_script)
pub const RUN_SCRIPT: usize = 248 * KB;
/// [`apply_edit`](crate::apply_edit)
pub const APPLY_EDIT: usize = 8 * KB;
/// [`apply_edit_in`](crate::apply_edit_in)
pub const APPLY_EDIT_IN: usize = 8 * KB;
/// [`apply_frame`](crate::apply_frame)
pub const APPLY_FRAME: usize = 148 * KB;
/// [`write_edit`](crate::write_edit)
pub const WRITE_EDIT: usize = 24 * KB;
/// [`write_text`](crate::write_text)
pub const WRITE_TEXT: usize = 24 * KB;
/// [`write_mark`](crate::write_mark)
pub const WRITE_MARK: usize = 2 * KB;
/// [`read_edit`](crate::read_edit)
pub const READ_EDIT: usize = 44 * KB;
/// [`read_text`](crate::read_text)
pub const READ_TEXT: usize = 44 * KB;
/// [`read_mark`](crate::read_mark)
pub const READ_MARK: usize = 24 * KB;
/// [`undoable`](crate::undoable)
pub const UNDOABLE: usize = 4 * KB;
/// [`set_cursor`](crate::set_cursor)
pub const SET_CURSOR: usize = 2 * KB;
/// [`clamp_position`](crate::clamp_position)
pub const CLAMP_POSITION: usize = 2 * KB;
/// [`box_fit`](crate::box_fit)
pub const BOX_FIT: usize = 4 * KB;
/// [`shift_position`](crate::shift_position)
pub const SHIFT_POSITION: usize = 4 * KB;
/// [`shift_sel`](crate::shift_sel)
pub const SHIFT_SEL: usize = 4 * KB;
/// [`merge_overlapping`](crate::merge_overlapping)
pub const MERGE_OVERLAPPING: usize = 40 * KB;
/// The functions of [`Sel`](crate::Sel)
pub const SEL: usize = 2 * KB;
/// The functions of [`Selection`](crate::Selection) but [`row_span`](crate::Selection::row_span)
pub const SELECTION: usize = 2 * KB;
/// [`Selection::row_span`](crate::Selection::row_span)
pub const ROW_SPAN: usize = 2 * KB;
/// [`decode`](crate::decode)
pub const DECODE: usize = 2 * KB;
/// [`encode`](crate::encode)
pub const ENCODE: usize = 2 * KB;
