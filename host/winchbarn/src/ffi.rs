//! The functions of `include/winchbarn.h`.

use crate::raw::{Applied, Count, Edit, Frame, Place, Rows, Said, SelPlace, Span, Viewed};
use crate::{Position, Sel, View};

unsafe extern "C" {
    pub(crate) fn winchbarn_run_script(
        input: *const u8,
        input_len: usize,
        out: *mut u8,
        out_len: usize,
    ) -> Count;

    pub(crate) fn winchbarn_apply_edit(
        text: *mut u32,
        text_len: usize,
        view: View,
        edit: Edit,
        payload: *const u32,
        payload_len: usize,
        first: *const u32,
        first_len: usize,
        second: *const u32,
        second_len: usize,
        out_payload: *mut u32,
        out_payload_len: usize,
        out_first: *mut u32,
        out_first_len: usize,
        out_second: *mut u32,
        out_second_len: usize,
    ) -> Applied;

    pub(crate) fn winchbarn_apply_edit_in(
        text: *mut u32,
        text_len: usize,
        view: *mut View,
        edit: Edit,
        payload: *const u32,
        payload_len: usize,
        first: *const u32,
        first_len: usize,
        second: *const u32,
        second_len: usize,
        out_payload: *mut u32,
        out_payload_len: usize,
        out_first: *mut u32,
        out_first_len: usize,
        out_second: *mut u32,
        out_second_len: usize,
    ) -> Applied;

    pub(crate) fn winchbarn_apply_frame(
        text: *mut u32,
        text_len: usize,
        view: View,
        line: *const u8,
        line_len: usize,
        out_payload: *mut u32,
        out_payload_len: usize,
        out_first: *mut u32,
        out_first_len: usize,
        out_second: *mut u32,
        out_second_len: usize,
    ) -> Applied;

    pub(crate) fn winchbarn_write_edit(
        edit: Edit,
        payload: *const u32,
        payload_len: usize,
        first: *const u32,
        first_len: usize,
        second: *const u32,
        second_len: usize,
        out: *mut u8,
        out_len: usize,
    ) -> Count;

    pub(crate) fn winchbarn_write_text(
        text: *const u32,
        text_len: usize,
        out: *mut u8,
        out_len: usize,
    ) -> Count;

    pub(crate) fn winchbarn_write_mark(mark: Sel, out: *mut u8, out_len: usize) -> Count;

    pub(crate) fn winchbarn_read_edit(
        line: *const u8,
        line_len: usize,
        out_payload: *mut u32,
        out_payload_len: usize,
        out_first: *mut u32,
        out_first_len: usize,
        out_second: *mut u32,
        out_second_len: usize,
    ) -> Frame;

    pub(crate) fn winchbarn_read_text(
        line: *const u8,
        line_len: usize,
        out: *mut u32,
        out_len: usize,
    ) -> Count;

    pub(crate) fn winchbarn_read_mark(line: *const u8, line_len: usize) -> SelPlace;

    pub(crate) fn winchbarn_undoable(
        text: *const u32,
        text_len: usize,
        view: View,
        edit: Edit,
        payload: *const u32,
        payload_len: usize,
        first: *const u32,
        first_len: usize,
        second: *const u32,
        second_len: usize,
    ) -> Said;

    pub(crate) fn winchbarn_set_cursor(
        text: *const u32,
        text_len: usize,
        view: View,
        pos: Position,
    ) -> Viewed;

    pub(crate) fn winchbarn_clamp_position(
        text: *const u32,
        text_len: usize,
        used: usize,
        pos: Position,
    ) -> Place;

    pub(crate) fn winchbarn_box_fit(
        text: *const u32,
        text_len: usize,
        used: usize,
        cells: u32,
        tab: u32,
    ) -> Place;

    pub(crate) fn winchbarn_shift_position(
        text: *const u32,
        text_len: usize,
        view: View,
        edit: Edit,
        payload: *const u32,
        payload_len: usize,
        first: *const u32,
        first_len: usize,
        second: *const u32,
        second_len: usize,
        pos: Position,
    ) -> Place;

    pub(crate) fn winchbarn_shift_sel(
        text: *const u32,
        text_len: usize,
        view: View,
        edit: Edit,
        payload: *const u32,
        payload_len: usize,
        first: *const u32,
        first_len: usize,
        second: *const u32,
        second_len: usize,
        sel: Sel,
    ) -> SelPlace;

    pub(crate) fn winchbarn_merge_overlapping(
        sels: *const u32,
        sels_len: usize,
        out: *mut u32,
        out_len: usize,
    ) -> Count;

    pub(crate) fn winchbarn_sel_caret(pos: Position) -> Sel;

    pub(crate) fn winchbarn_sel_is_caret(sel: Sel) -> bool;

    pub(crate) fn winchbarn_sel_start(sel: Sel) -> Position;

    pub(crate) fn winchbarn_sel_end(sel: Sel) -> Position;

    pub(crate) fn winchbarn_sel_overlaps(sel: Sel, other: Sel) -> bool;

    pub(crate) fn winchbarn_selection_head(kind: u32, sel: Sel) -> Place;

    pub(crate) fn winchbarn_selection_anchor(kind: u32, sel: Sel) -> Place;

    pub(crate) fn winchbarn_selection_extend_to(kind: u32, sel: Sel, pos: Position) -> SelPlace;

    pub(crate) fn winchbarn_selection_row_bounds(kind: u32, sel: Sel) -> Rows;

    pub(crate) fn winchbarn_row_span(kind: u32, sel: Sel, row: u32) -> Span;

    pub(crate) fn winchbarn_decode(
        bytes: *const u8,
        bytes_len: usize,
        out: *mut u32,
        out_len: usize,
    ) -> Count;

    pub(crate) fn winchbarn_encode(
        scalars: *const u32,
        scalars_len: usize,
        out: *mut u8,
        out_len: usize,
    ) -> Count;
}

#[cfg(test)]
mod tests {
    use super::*;
    use std::mem::{align_of, offset_of, size_of};

    fn layout<T>() -> (usize, usize) {
        (size_of::<T>(), align_of::<T>())
    }

    #[test]
    fn sizes_and_alignments_are_those_of_c_on_x86_64() {
        assert_eq!(layout::<Position>(), (8, 4));
        assert_eq!(layout::<View>(), (24, 8));
        assert_eq!(layout::<Sel>(), (16, 4));
        assert_eq!(layout::<Edit>(), (24, 4));
        assert_eq!(layout::<Count>(), (24, 8));
        assert_eq!(layout::<Applied>(), (88, 8));
        assert_eq!(layout::<Viewed>(), (32, 8));
        assert_eq!(layout::<Frame>(), (64, 8));
        assert_eq!(layout::<Place>(), (16, 4));
        assert_eq!(layout::<SelPlace>(), (24, 4));
        assert_eq!(layout::<Span>(), (16, 4));
        assert_eq!(layout::<Rows>(), (12, 4));
        assert_eq!(layout::<Said>(), (8, 4));
    }

    #[test]
    fn fields_stand_where_c_has_them() {
        let offsets = [
            offset_of!(View, cursor),
            offset_of!(View, changes),
            offset_of!(Edit, start),
            offset_of!(Edit, end),
            offset_of!(Edit, count),
            offset_of!(Applied, view),
            offset_of!(Applied, inverse),
            offset_of!(Applied, payload),
            offset_of!(Applied, first),
            offset_of!(Applied, second),
            offset_of!(Viewed, view),
            offset_of!(Frame, offset),
            offset_of!(Frame, edit),
            offset_of!(Frame, payload),
            offset_of!(Frame, first),
            offset_of!(Frame, second),
            offset_of!(Place, found),
            offset_of!(Place, at),
            offset_of!(SelPlace, sel),
            offset_of!(Span, covered),
            offset_of!(Span, open),
            offset_of!(Span, lo),
            offset_of!(Span, hi),
            offset_of!(Rows, top),
            offset_of!(Rows, bottom),
            offset_of!(Said, yes),
        ];
        assert_eq!(
            offsets,
            [
                8, 16, 4, 12, 20, 16, 40, 64, 72, 80, 8, 8, 16, 40, 48, 56, 4, 8, 8, 4, 5, 8, 12,
                4, 8, 4
            ]
        );
    }
}
