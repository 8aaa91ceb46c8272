//! Lines of a script, read and written one by one. A line is lower-case hexadecimal, without its line feed.

use crate::{Edit, Refusal, Sel, accepted, counted, raw};

/// An edit that was read from a line: its numbers, and how many elements of its payload and lists were written to the front of
/// the slices lent for them.
#[derive(Clone, Copy, Debug, PartialEq, Eq)]
pub struct ReadEdit {
    pub edit: Edit,
    pub payload: usize,
    pub first: usize,
    pub second: usize,
}

/// Reads the edit that a line is, its payload and lists to the front of the slices, the rest of which is kept. 18,432
/// characters and 4,608 and 3,687 items are always enough. Refuses by 10 where the line is no frame of an edit, then 5, 8.
/// Stack: [`stack::READ_EDIT`](crate::stack::READ_EDIT).
pub fn read_edit(
    line: &[u8],
    out_payload: &mut [u32],
    out_first: &mut [u32],
    out_second: &mut [u32],
) -> Result<ReadEdit, Refusal> {
    let frame = raw::read_edit(line, out_payload, out_first, out_second);
    accepted(frame.refusal, frame.offset)?;
    Ok(ReadEdit {
        edit: frame.edit.try_into().expect("an edit has a kind"),
        payload: frame.payload,
        first: frame.first,
        second: frame.second,
    })
}

/// Reads the characters that a text's line holds to the front of `out`; answers how many there are. The rest of `out` is kept.
/// They are any Unicode scalars, at most 18,431: whether they are a text is judged where they are used as one. Refuses by 10
/// where the line is no frame of a text, then 5, 8. Stack: [`stack::READ_TEXT`](crate::stack::READ_TEXT).
pub fn read_text(line: &[u8], out: &mut [u32]) -> Result<usize, Refusal> {
    counted(raw::read_text(line, out))
}

/// The mark that a line is. Refuses by 10 where the line is no frame of a mark. Stack:
/// [`stack::READ_MARK`](crate::stack::READ_MARK).
pub fn read_mark(line: &[u8]) -> Result<Sel, Refusal> {
    let place = raw::read_mark(line);
    accepted(place.refusal, 0)?;
    Ok(place.sel)
}

/// Writes a text as a line to the front of `out`; answers how many digits that is. The rest of `out` is kept. Refuses by 1, then
/// 8. Stack: [`stack::WRITE_TEXT`](crate::stack::WRITE_TEXT).
pub fn write_text(text: &[u32], out: &mut [u8]) -> Result<usize, Refusal> {
    counted(raw::write_text(text, out))
}

/// Writes a mark as a line to the front of `out`; answers how many digits that is. The rest of `out` is kept. Refuses by 8.
/// Stack: [`stack::WRITE_MARK`](crate::stack::WRITE_MARK).
pub fn write_mark(mark: Sel, out: &mut [u8]) -> Result<usize, Refusal> {
    counted(raw::write_mark(mark, out))
}
