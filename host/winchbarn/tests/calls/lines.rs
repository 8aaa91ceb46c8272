//! Lines read and written one by one, the view that is lent, and the operations of selections.

use crate::support::{Buffer, at, edit, scalars};
use winchbarn::*;

fn sel(anchor: Position, head: Position) -> Sel {
    Sel { anchor, head }
}

fn view_of(text: &[u32]) -> View {
    View {
        used: text.len(),
        cursor: at(5, 5),
        changes: 9,
    }
}

#[test]
fn an_edit_is_read_as_it_was_written() {
    let split = edit(Kind::SplitLines, at(3, 0), at(0, 0));
    let mut line = [b'.'; 64];
    let digits = write_edit(split, &[], &[1, 3], &[0, 1], &mut line).unwrap();
    let (mut payload, mut first, mut second) = ([7; 1], [7; 3], [7; 3]);
    let read = read_edit(&line[..digits], &mut payload, &mut first, &mut second);
    let expected = ReadEdit {
        edit: split,
        payload: 0,
        first: 2,
        second: 2,
    };
    assert_eq!(read, Ok(expected));
    assert_eq!((payload, first, second), ([7], [1, 3, 7], [0, 1, 7]));
}

#[test]
fn lines_that_are_no_edit_have_bad_bytes_or_no_room() {
    let read = |line: &[u8]| read_edit(line, &mut [], &mut [], &mut []);
    assert_eq!(read(b"0161"), Err(Refusal::BadFrame));
    assert_eq!(read(b"10000000000000000061"), Err(Refusal::NoRoom));
    let ill_formed = b"10000000000000000061c080";
    assert_eq!(read(ill_formed), Err(Refusal::BadUtf8 { offset: 10 }));
}

#[test]
fn a_text_is_read_as_it_was_written() {
    let text = scalars("a\u{e9}\n");
    let mut line = [b'.'; 12];
    assert_eq!(write_text(&text, &mut line), Ok(10));
    assert_eq!(&line, b"0161c3a90a..");
    let mut out = [7; 4];
    assert_eq!(read_text(&line[..10], &mut out), Ok(3));
    assert_eq!(out, [0x61, 0xe9, 0x0a, 7]);
    assert_eq!(read_text(b"02", &mut out), Err(Refusal::BadFrame));
    let ill_formed = Err(Refusal::BadUtf8 { offset: 2 });
    assert_eq!(read_text(b"0161ff", &mut out), ill_formed);
    assert_eq!(read_text(&line[..10], &mut out[..2]), Err(Refusal::NoRoom));
    assert_eq!(write_text(&[0xd800], &mut line), Err(Refusal::BadText));
    assert_eq!(write_text(&text, &mut line[..9]), Err(Refusal::NoRoom));
}

#[test]
fn a_mark_is_read_as_it_was_written() {
    let mark = sel(at(1, 2), at(3, u32::MAX));
    let mut line = [b'.'; 35];
    assert_eq!(write_mark(mark, &mut line), Ok(34));
    assert_eq!(&line, b"02000000010000000200000003ffffffff.");
    assert_eq!(read_mark(&line[..34]), Ok(mark));
    assert_eq!(read_mark(&line[..32]), Err(Refusal::BadFrame));
    assert_eq!(write_mark(mark, &mut line[..33]), Err(Refusal::NoRoom));
}

#[test]
fn the_cursor_is_brought_into_the_text() {
    let text = scalars("ab\ncd");
    let view = view_of(&text);
    let set = |pos| set_cursor(&text, view, pos).map(|view| view.cursor);
    assert_eq!(set(at(0, 1)), Ok(at(0, 1)));
    assert_eq!(set(at(9, 9)), Ok(at(1, 2)));
    let expected = View {
        cursor: at(0, 1),
        ..view
    };
    assert_eq!(set_cursor(&text, view, at(0, 1)), Ok(expected));
    let past = View { used: 6, ..view };
    let refused = set_cursor(&text, past, at(0, 0));
    assert_eq!(refused, Err(Refusal::BadText));
}

#[test]
fn a_lent_view_is_updated_where_it_stands() {
    let mut buffer = Buffer::holding("ab");
    let insertion = edit(Kind::InsertStr, at(0, 1), at(0, 0));
    let mut insert = |payload: &[u32]| {
        apply_edit_in(
            &mut buffer.text,
            &mut buffer.view,
            insertion,
            payload,
            &[],
            &[],
            &mut [0; 64],
            &mut [0; LIST_LIMIT],
            &mut [0; LIST_LIMIT],
        )
    };
    let done = insert(&scalars("x")).unwrap();
    assert_eq!(insert(&[0x0d]), Err(Refusal::BadPayload));
    assert_eq!(buffer.view, done.view);
    assert_eq!(buffer.view.changes, 1);
    assert_eq!(buffer.text(), "axb");
}

#[test]
fn ends_are_told_apart() {
    let back = sel(at(2, 0), at(1, 9));
    assert_eq!((back.start(), back.end()), (at(1, 9), at(2, 0)));
    assert!(!back.is_caret() && Sel::caret(at(3, 4)).is_caret());
    assert_eq!(Sel::caret(at(3, 4)), sel(at(3, 4), at(3, 4)));
    assert!(back.overlaps(Sel::caret(at(2, 0))));
    assert!(!back.overlaps(Sel::caret(at(2, 1))));
}

#[test]
fn selections_have_the_ends_and_rows_of_their_shape() {
    let ends = sel(at(3, 4), at(1, 6));
    let by = |shape| Selection { shape, sel: ends };
    for shape in [Shape::Char, Shape::Block] {
        assert_eq!((by(shape).anchor(), by(shape).head()), (at(3, 4), at(1, 6)));
        let extended = sel(at(3, 4), at(8, 9));
        assert_eq!(by(shape).extend_to(at(8, 9)).sel, extended);
        assert_eq!(by(shape).row_bounds(), 1..=3);
    }
    let rows = by(Shape::Line);
    assert_eq!((rows.anchor(), rows.head()), (at(3, 0), at(1, 0)));
    assert_eq!(rows.extend_to(at(8, 9)).sel, sel(at(3, 0), at(8, 0)));
    assert_eq!(rows.extend_to(at(8, 9)).row_bounds(), 3..=8);
}

#[test]
fn kinds_of_selections_that_are_none() {
    let sel = Sel::default();
    assert_eq!(raw::selection_head(3, sel).refusal, 10);
    assert_eq!(raw::selection_anchor(3, sel).refusal, 10);
    assert_eq!(raw::selection_extend_to(3, sel, at(1, 1)).refusal, 10);
    let rows = raw::Rows {
        refusal: 10,
        ..raw::Rows::default()
    };
    assert_eq!(raw::selection_row_bounds(3, sel), rows);
}
