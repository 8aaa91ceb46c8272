//! One refusal of each function, with its number, and what it leaves: everything that was lent, as it was.

use crate::support::{Buffer, Whole, at, edit, scalars};
use winchbarn::*;

const NO_KIND: u32 = 11;

fn view_of(text: &[u32]) -> View {
    View {
        used: text.len(),
        ..View::default()
    }
}

#[test]
fn a_script_whose_output_has_no_room() {
    let mut out = [b'.'; 2];
    assert_eq!(run_script(b"", &mut out), Err(Refusal::NoRoom));
    assert_eq!(&out, b"..");
}

#[test]
fn an_edit_whose_text_has_no_room() {
    let mut text = scalars("ab");
    let view = View {
        changes: u64::MAX,
        ..view_of(&text)
    };
    let insertion = edit(Kind::InsertStr, at(0, 0), at(0, 0));
    let (mut payload, mut first, mut second) = ([7; 2], [7; 2], [7; 2]);
    let answer = apply_edit(
        &mut text,
        view,
        insertion,
        &scalars("x"),
        &[],
        &[],
        &mut payload,
        &mut first,
        &mut second,
    );
    assert_eq!(answer, Err(Refusal::NoRoom));
    assert_eq!(text, scalars("ab"));
    assert_eq!([payload, first, second], [[7; 2]; 3]);
}

#[test]
fn an_edit_whose_inverse_has_no_room() {
    let mut text = scalars("abc");
    let view = view_of(&text);
    let cut = edit(Kind::DeleteChar, at(0, 0), at(0, 2));
    let mut record = [7; 1];
    let answer = apply_edit(
        &mut text,
        view,
        cut,
        &[],
        &[],
        &[],
        &mut record,
        &mut [],
        &mut [],
    );
    assert_eq!(answer, Err(Refusal::NoRecord));
    assert_eq!((text, record), (scalars("abc"), [7]));
}

#[test]
fn a_frame_that_is_not_utf_8_has_the_offset_in_its_bytes() {
    let mut text = scalars("ab");
    let view = view_of(&text);
    let frame = b"10000000000000000061c080";
    let answer = apply_frame(&mut text, view, frame, &mut [], &mut [], &mut []);
    assert_eq!(answer, Err(Refusal::BadUtf8 { offset: 10 }));
    assert_eq!(text, scalars("ab"));
}

#[test]
fn an_edit_that_has_no_frame() {
    let mut out = [b'.'; 64];
    let insertion = edit(Kind::InsertChar, at(0, 0), at(0, 0));
    assert_eq!(
        write_edit(insertion, &scalars("x"), &[], &[], &mut out),
        Err(Refusal::BadFrame)
    );
    assert_eq!(out, [b'.'; 64]);
}

#[test]
fn undoable_of_a_number_too_big() {
    let far = Whole::new(
        edit(Kind::DeleteChar, at(0, 0), at(0, 1_000_001)),
        "",
        &[],
        &[],
    );
    assert_eq!(Buffer::holding("ab").undoable(&far), Err(Refusal::TooBig));
}

#[test]
fn clamping_and_the_box_in_no_text() {
    let carriage_return = scalars("a\rb");
    assert_eq!(
        clamp_position(&carriage_return, 3, at(0, 0)),
        Err(Refusal::BadText)
    );
    assert_eq!(clamp_position(&carriage_return, 1, at(0, 9)), Ok(at(0, 1)));
    assert_eq!(box_fit(&carriage_return, 4, 9, 8), Err(Refusal::BadText));
    assert_eq!(box_fit(&carriage_return, 3, 9, 8), Err(Refusal::BadText));
    assert_eq!(box_fit(&carriage_return, 1, 9, 8), Ok(None));
}

#[test]
fn a_box_or_a_tab_too_wide() {
    let over = NUMBER_LIMIT + 1;
    let tab = scalars("\ta");
    for (cells, width) in [
        (over, 8),
        (8, over),
        (over, over),
        (u32::MAX, 0),
        (0, u32::MAX),
    ] {
        assert_eq!(box_fit(&tab, 2, cells, width), Err(Refusal::TooBig));
        assert_eq!(box_fit(&[], 0, cells, width), Err(Refusal::TooBig));
        assert_eq!(box_fit(&tab, 3, cells, width), Err(Refusal::BadText));
    }
    let at_limit = |used| box_fit(&tab, used, NUMBER_LIMIT, NUMBER_LIMIT);
    assert_eq!(at_limit(1), Ok(None));
    assert_eq!(at_limit(2), Ok(Some(at(0, 1))));
}

#[test]
fn shifts_over_reversed_ends() {
    let text = scalars("ab");
    let view = view_of(&text);
    let reversed = edit(Kind::Replace, at(0, 1), at(0, 0));
    assert_eq!(
        shift_position(&text, view, reversed, &[], &[], &[], at(0, 0)),
        Err(Refusal::Reversed)
    );
    let rows = edit(Kind::DeleteLine, at(1, 0), at(0, 0));
    assert_eq!(
        shift_sel(&text, view, rows, &[], &[], &[], Sel::default()),
        Err(Refusal::Reversed)
    );
    let block = edit(Kind::DeleteBlock, at(1, 1), at(0, 0));
    assert!(shift_position(&text, view, block, &[], &[], &[], at(0, 0)).is_ok());
}

#[test]
fn selections_that_are_too_many_or_have_no_room() {
    let caret = Sel {
        anchor: at(7, 7),
        head: at(7, 7),
    };
    let mut out = [caret; 2];
    let many = [Sel::default(); SELECTION_LIMIT / 4 + 1];
    assert_eq!(merge_overlapping(&many, &mut out), Err(Refusal::TooMany));
    assert_eq!(
        merge_overlapping(&many[..3], &mut out),
        Err(Refusal::NoRecord)
    );
    assert_eq!(out, [caret; 2]);
}

#[test]
fn numbers_that_are_no_kind() {
    assert_eq!(Kind::try_from(NO_KIND), Err(Refusal::BadFrame));
    assert_eq!(Kind::try_from(u32::MAX), Err(Refusal::BadFrame));
    assert_eq!(Shape::try_from(3), Err(Refusal::BadFrame));
    let none = raw::Edit {
        kind: NO_KIND,
        ..raw::Edit::default()
    };
    let mut text = scalars("ab");
    let view = view_of(&text);
    let said = raw::undoable(&text, view, none, &[], &[], &[]);
    assert_eq!((said.refusal, said.yes), (10, false));
    let mut out = [b'.'; 8];
    assert_eq!(
        raw::write_edit(none, &[], &[], &[], &mut out),
        raw::Count {
            refusal: 10,
            ..raw::Count::default()
        }
    );
    assert_eq!(
        raw::shift_position(&text, view, none, &[], &[], &[], at(0, 0)),
        raw::Place {
            refusal: 10,
            ..raw::Place::default()
        }
    );
    assert_eq!(
        raw::apply_edit(
            &mut text,
            view,
            none,
            &[],
            &[],
            &[],
            &mut [],
            &mut [],
            &mut []
        ),
        raw::Applied {
            refusal: 10,
            view,
            ..raw::Applied::default()
        }
    );
    let span = raw::Span {
        refusal: 10,
        ..raw::Span::default()
    };
    assert_eq!(raw::row_span(3, Sel::default(), 0), span);
}

#[test]
fn selections_not_in_fours() {
    let mut out = [7; 8];
    let refused = raw::Count {
        refusal: 4,
        ..raw::Count::default()
    };
    assert_eq!(raw::merge_overlapping(&[0; 5], &mut out), refused);
    assert_eq!(out, [7; 8]);
}

#[test]
fn kinds_and_refusals_have_their_numbers() {
    for (number, kind) in (0..).zip(Kind::ALL) {
        assert_eq!((kind.number(), Kind::try_from(number)), (number, Ok(kind)));
    }
    for (number, shape) in (0..).zip(Shape::ALL) {
        let made = Shape::try_from(number);
        assert_eq!((shape.number(), made), (number, Ok(shape)));
    }
    for number in 1..=10 {
        let refusal = Refusal::of(number, 3).unwrap();
        let offset = if number == 5 { 3 } else { 0 };
        assert_eq!((refusal.number(), refusal.offset()), (number, offset));
        let name = format!("{refusal:?}");
        assert!(name.starts_with(refusal.name()));
    }
    assert_eq!((Refusal::of(0, 0), Refusal::of(11, 0)), (None, None));
}

#[test]
fn bytes_that_are_not_utf_8_and_values_that_are_no_scalars() {
    let mut scalars = [7; 4];
    let refusal = decode(b"ab\xed\xa0\x80", &mut scalars).unwrap_err();
    assert_eq!(refusal, Refusal::BadUtf8 { offset: 2 });
    assert_eq!(
        refusal.to_string(),
        "5 BadUtf8: bytes that are not UTF-8, from offset 2 on"
    );
    assert_eq!(scalars, [7; 4]);
    let mut bytes = [b'.'; 4];
    assert_eq!(encode(&[0x61, 0xd800], &mut bytes), Err(Refusal::BadText));
    assert_eq!(&bytes, b"....");
}
