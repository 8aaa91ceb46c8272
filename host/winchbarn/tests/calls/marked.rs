//! Document 01's marked examples, by their numbers, what document 02 says of the box, and an accepted call of each function that they do not reach.

use crate::support::{Buffer, Whole, at, edit, scalars};
use winchbarn::*;

const INSERT_SCRIPT: &[u8] = b"0161620a6364
0200000001000000010000000100000002
100000000000000001580a
";
const INSERT_OUTPUT: &[u8] = b"00110000000000000000010000000100000000
0161580a620a6364
0200000002000000010000000200000002
";

fn spaced_join(row: u32, count: u32) -> Edit {
    Edit {
        start: at(row, 0),
        count,
        ..Edit::new(Kind::JoinLinesSpaced)
    }
}

/// Applies an edit to a text and answers the text after it, its inverse and the buffer.
fn applied(text: &str, whole: &Whole) -> (String, Whole, Buffer) {
    let mut buffer = Buffer::holding(text);
    let inverse = buffer.apply(whole).expect("the example is accepted");
    (buffer.text(), inverse, buffer)
}

#[test]
fn examples_1_and_2_rows() {
    let clamped = |text: &str| {
        let text = scalars(text);
        clamp_position(&text, text.len(), at(9, 9))
    };
    assert_eq!(clamped(""), Ok(at(0, 0)));
    assert_eq!(clamped("a\n"), Ok(at(1, 0)));
}

#[test]
fn a_position_in_the_text_stays_and_one_past_its_row_goes_to_the_row_end() {
    let text = scalars("ab\ncd\nef");
    assert_eq!(clamp_position(&text, text.len(), at(1, 1)), Ok(at(1, 1)));
    assert_eq!(clamp_position(&text, text.len(), at(1, 9)), Ok(at(1, 2)));
}

#[test]
fn example_3_a_script() {
    let mut out = [b'.'; 200];
    let written = run_script(INSERT_SCRIPT, &mut out).unwrap();
    assert_eq!(&out[..written], INSERT_OUTPUT);
    assert!(out[written..].iter().all(|&byte| byte == b'.'));
}

#[test]
fn example_4_char_delete_past_the_row() {
    let cut = Whole::new(edit(Kind::DeleteChar, at(0, 99), at(1, 2)), "", &[], &[]);
    assert_eq!(Buffer::holding("ab\ncdef").undoable(&cut), Ok(false));
    let (text, inverse, buffer) = applied("ab\ncdef", &cut);
    assert_eq!(text, "abef");
    assert_eq!(buffer.text[4..7], [0; 3]);
    assert_eq!(buffer.view.cursor, at(0, 4));
    assert_eq!(buffer.view.changes, 1);
    let back = edit(Kind::InsertStr, at(0, 99), at(0, 0));
    assert_eq!(inverse, Whole::new(back, "\ncd", &[], &[]));
}

#[test]
fn examples_5_and_6_line_deletes() {
    let row = |row| Whole::new(edit(Kind::DeleteLine, at(row, 0), at(row, 0)), "", &[], &[]);
    let put =
        |place, payload| Whole::new(edit(Kind::InsertStr, place, at(0, 0)), payload, &[], &[]);
    assert_eq!(Buffer::holding("a\nb").undoable(&row(1)), Ok(true));
    let (text, inverse, buffer) = applied("a\nb", &row(1));
    assert_eq!((text.as_str(), buffer.view.cursor), ("a", at(0, 0)));
    assert_eq!(inverse, put(at(0, 1), "\nb"));
    let (text, inverse, _) = applied("", &row(0));
    assert_eq!(text, "");
    assert_eq!(inverse, put(at(0, 0), ""));
}

#[test]
fn examples_7_and_8_joins() {
    let split = |columns, flags| {
        Whole::new(
            edit(Kind::SplitLines, at(0, 0), at(0, 0)),
            "",
            columns,
            flags,
        )
    };
    let (text, inverse, _) = applied("a\n\nb", &Whole::new(spaced_join(0, 0), "", &[], &[]));
    assert_eq!(text, "a\nb");
    assert_eq!(inverse, split(&[1], &[0]));
    let (text, inverse, _) = applied("a\nb\nc", &Whole::new(spaced_join(0, 5), "", &[], &[]));
    assert_eq!(text, "a b c");
    assert_eq!(inverse, split(&[1, 3], &[1, 1]));
}

#[test]
fn example_9_block_insert() {
    let block = Whole::new(
        edit(Kind::InsertBlock, at(0, 2), at(0, 0)),
        "XY",
        &[1, 1],
        &[],
    );
    let (text, inverse, _) = applied("abc\nd", &block);
    assert_eq!(text, "abXc\nd Y");
    let chunks = edit(Kind::DeleteBlockChunks, at(0, 2), at(0, 0));
    assert_eq!(inverse, Whole::new(chunks, "", &[1, 1], &[0, 1]));
}

#[test]
fn example_10_block_delete_and_back() {
    let block = Whole::new(edit(Kind::DeleteBlock, at(0, 2), at(1, 2)), "", &[], &[]);
    let (text, inverse, mut buffer) = applied("abc\nd", &block);
    assert_eq!(text, "ab\nd");
    buffer.apply(&inverse).unwrap();
    assert_eq!(buffer.text(), "abc\nd ");
}

#[test]
fn example_11_splits() {
    let split = |column| {
        Whole::new(
            edit(Kind::SplitLines, at(0, 0), at(0, 0)),
            "",
            &[column],
            &[1],
        )
    };
    assert_eq!(applied("abc", &split(3)).0, "abc\n");
    let mut buffer = Buffer::holding("abc");
    let refusal = buffer.apply(&split(4)).unwrap_err();
    assert_eq!(refusal, Refusal::BeyondRow);
    assert_eq!(buffer.text(), "abc");
}

#[test]
fn example_12_merged_selections() {
    let sel = |anchor, head| Sel {
        anchor: at(0, anchor),
        head: at(0, head),
    };
    let mut out = [sel(7, 7); 3];
    assert_eq!(merge_overlapping(&[sel(0, 3), sel(5, 3)], &mut out), Ok(1));
    assert_eq!(out, [sel(0, 5), sel(7, 7), sel(7, 7)]);
    assert_eq!(merge_overlapping(&[], &mut []), Ok(0));
}

#[test]
fn a_selection_is_its_four_numbers() {
    let sels = [2, 1, 0].map(|row| Sel {
        anchor: at(row, 9),
        head: at(row, 8),
    });
    let mut out = [7; 12];
    let flat = [2, 9, 2, 8, 1, 9, 1, 8, 0, 9, 0, 8];
    assert_eq!(raw::merge_overlapping(&flat, &mut out).count, 3);
    assert_eq!(out, [0, 9, 0, 8, 1, 9, 1, 8, 2, 9, 2, 8]);
    let mut merged = [Sel::default(); 3];
    assert_eq!(merge_overlapping(&sels, &mut merged), Ok(3));
    assert_eq!(merged, [sels[2], sels[1], sels[0]]);
}

#[test]
fn example_13_shifts_over_a_join() {
    let text = scalars("ab\ncd");
    let view = View {
        used: text.len(),
        ..View::default()
    };
    let join = spaced_join(0, 1);
    let position = shift_position(&text, view, join, &[], &[], &[], at(1, 2));
    assert_eq!(position, Ok(Some(at(0, 5))));
    let sel = Sel {
        anchor: at(1, 2),
        head: at(0, 1),
    };
    let shifted = Sel {
        anchor: at(0, 5),
        head: at(0, 1),
    };
    assert_eq!(
        shift_sel(&text, view, join, &[], &[], &[], sel),
        Ok(Some(shifted))
    );
    let split = edit(Kind::SplitLines, at(0, 0), at(0, 0));
    assert_eq!(shift_sel(&text, view, split, &[], &[1], &[], sel), Ok(None));
}

#[test]
fn example_14_replace_past_the_row() {
    let replace = Whole::new(edit(Kind::Replace, at(0, 99), at(1, 2)), "X", &[], &[]);
    assert_eq!(applied("ab\ncdef", &replace).0, "abefX");
}

#[test]
fn a_frame_is_applied_as_its_edit_and_its_inverse_is_written_as_in_the_script() {
    let mut buffer = Buffer::holding("ab\ncd");
    let frame = b"100000000000000001580a";
    let (mut payload, mut first, mut second) = ([0; 64], [0; LIST_LIMIT], [0; LIST_LIMIT]);
    let done = apply_frame(
        &mut buffer.text,
        buffer.view,
        frame,
        &mut payload,
        &mut first,
        &mut second,
    )
    .unwrap();
    buffer.view = done.view;
    assert_eq!(buffer.text(), "aX\nb\ncd");
    let mut line = [b'.'; 64];
    let digits = write_edit(
        done.inverse,
        &payload[..done.payload],
        &first[..done.first],
        &second[..done.second],
        &mut line,
    )
    .unwrap();
    assert!(INSERT_OUTPUT.starts_with(&[b"00", &line[..digits], b"\n"].concat()));
    assert_eq!(line[digits..], [b'.'; 64][digits..]);
}

fn boxed(text: &str, cells: u32, tab: u32) -> Option<Position> {
    let text = scalars(text);
    box_fit(&text, text.len(), cells, tab).expect("the box is answered")
}

#[test]
fn the_box_is_left_at_its_first_overlong_row() {
    let text = "ab\nabcd\nabcde";
    assert_eq!(boxed(text, 3, 8), Some(at(1, 3)));
    assert_eq!(boxed(text, 5, 8), None);
    assert_eq!(boxed("\n\na", 0, 8), Some(at(2, 0)));
    assert_eq!(boxed("\n\n", 0, 8), None);
}

#[test]
fn kana_take_two_cells_and_leave_by_their_last() {
    assert_eq!(boxed("aあ", 2, 8), Some(at(0, 1)));
    assert_eq!(boxed("aあ", 3, 8), None);
    assert_eq!(boxed("あ", 1, 8), Some(at(0, 0)));
    assert_eq!(boxed("あ", 2, 8), None);
    assert_eq!(boxed("ab\nあい\nうえお", 4, 8), Some(at(2, 2)));
}

#[test]
fn a_tab_runs_to_the_next_multiple_of_its_width() {
    assert_eq!(boxed("a\t", 4, 8), Some(at(0, 1)));
    assert_eq!(boxed("a\t", 8, 8), None);
    assert_eq!(boxed("abcd\t", 7, 4), Some(at(0, 4)));
    assert_eq!(boxed("abcd\t", 8, 4), None);
    assert_eq!(boxed("あ\tい", 6, 4), None);
    assert_eq!(boxed("a\tb", 3, 0), None);
    assert_eq!(boxed("a\tb", 3, 1), None);
    assert_eq!(boxed("\t", 0, 1), Some(at(0, 0)));
    assert_eq!(boxed("\t", 0, 0), Some(at(0, 0)));
    assert_eq!(boxed("\t", 1, 0), None);
}

#[test]
fn wide_and_fullwidth_are_two_cells_and_all_else_is_one() {
    for wide in ["あ", "漢", "Ａ", "　", "한", "😀", "\u{fada}", "\u{3fffd}"] {
        assert_eq!(boxed(wide, 1, 8), Some(at(0, 0)), "{wide:?}");
        assert_eq!(boxed(wide, 2, 8), None, "{wide:?}");
    }
    for narrow in [
        "a",
        "é",
        "ｱ",
        "¡",
        "\0",
        "\u{301}",
        "\u{200b}",
        "\u{feff}",
        "\u{2fffe}",
    ] {
        assert_eq!(boxed(narrow, 0, 8), Some(at(0, 0)), "{narrow:?}");
        assert_eq!(boxed(narrow, 1, 8), None, "{narrow:?}");
    }
}

#[test]
fn a_selection_covers_a_row_from_its_start_between_and_to_its_end() {
    let sel = Sel {
        anchor: at(3, 4),
        head: at(1, 2),
    };
    let by = |shape| Selection { shape, sel };
    let spans = [0, 1, 2, 3].map(|row| by(Shape::Char).row_span(row));
    assert_eq!(
        spans,
        [
            Span::Outside,
            Span::Open { lo: 2 },
            Span::Open { lo: 0 },
            Span::Closed { lo: 0, hi: 4 },
        ]
    );
    assert_eq!(by(Shape::Line).row_span(3), Span::Open { lo: 0 });
    let columns = Span::Closed { lo: 2, hi: 4 };
    assert_eq!(by(Shape::Block).row_span(2), columns);
}

#[test]
fn utf8_is_read_and_written_in_all_four_lengths() {
    let text = "a\u{e9}\u{3042}\u{10ffff}";
    let mut read = [9; 5];
    assert_eq!(decode(text.as_bytes(), &mut read), Ok(4));
    assert_eq!(read, [0x61, 0xe9, 0x3042, 0x10ffff, 9]);
    let mut written = [b'.'; 12];
    assert_eq!(encode(&read[..4], &mut written), Ok(10));
    assert_eq!(&written[..10], text.as_bytes());
    assert_eq!(&written[10..], b"..");
}

#[test]
fn undoable_says_no_of_a_split_that_is_taken_back_exactly() {
    let split = Whole::new(edit(Kind::SplitLines, at(0, 0), at(0, 0)), "", &[1], &[]);
    assert_eq!(Buffer::holding("ab").undoable(&split), Ok(false));
    let (text, inverse, mut buffer) = applied("ab", &split);
    assert_eq!(text, "a\nb");
    buffer.apply(&inverse).unwrap();
    assert_eq!(buffer.text(), "ab");
}
