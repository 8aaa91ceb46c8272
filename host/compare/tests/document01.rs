//! The Rust that the core is compared with, held against document 01's examples and readings, and the box test against what document 02 says.

use compare::bridge::{self, Done};
use compare::calls::{Call, Room, Whole, at, chars};
use compare::forms::{Form, form, read_edit};
use compare::frames::{edit_line, hex, text_frame};
use compare::law;
use compare::random::Random;
use compare::sample;
use compare::scripts::printed;
use compare::shifts::Shift;
use compare::{cases, framed};
use original::merge_overlapping;
use winchbarn::raw::{
    DELETE_BLOCK, DELETE_BLOCK_CHUNKS, DELETE_CHAR, DELETE_LINE, Edit, INSERT_BLOCK, INSERT_STR,
    JOIN_LINES, JOIN_LINES_SPACED, REPLACE, SPLIT_LINES,
};
use winchbarn::{Position, Refusal, Sel};

fn whole(kind: u32, start: Position, end: Position, payload: &str) -> Whole {
    Whole {
        edit: Edit {
            kind,
            start,
            end,
            count: 0,
        },
        payload: chars(payload),
        ..Whole::default()
    }
}

fn join(kind: u32, row: u32, count: u32) -> Whole {
    let mut join = whole(kind, at(row, 0), at(0, 0), "");
    join.edit.count = count;
    join
}

fn listed(kind: u32, start: Position, payload: &str, first: &[u32], second: &[u32]) -> Whole {
    Whole {
        first: first.to_vec(),
        second: second.to_vec(),
        ..whole(kind, start, at(0, 0), payload)
    }
}

/// A call in a buffer that has room enough.
fn call(text: &str, whole: Whole) -> Call {
    let mut call = Call::on(&chars(text), whole);
    call.buffer.resize(20_000, 0);
    call.room = Room::of_demand_3(&call.buffer);
    call
}

fn check(text: &str, whole: Whole, after: &str, cursor: Position, inverse: Whole) {
    let expected = Done {
        text: chars(after),
        cursor,
        changes: 1,
        inverse,
    };
    let done = law::applied(&call(text, whole.clone()));
    assert_eq!(done, Ok(expected), "{text:?} {whole}");
}

fn flat_examples() {
    let cut = whole(DELETE_CHAR, at(0, 99), at(1, 2), "");
    let back = whole(INSERT_STR, at(0, 99), at(0, 0), "\ncd");
    check("ab\ncdef", cut, "abef", at(0, 4), back);
    let line = whole(DELETE_LINE, at(1, 0), at(1, 0), "");
    let back = whole(INSERT_STR, at(0, 1), at(0, 0), "\nb");
    check("a\nb", line, "a", at(0, 0), back);
    let line = whole(DELETE_LINE, at(0, 0), at(0, 0), "");
    let back = whole(INSERT_STR, at(0, 0), at(0, 0), "");
    check("", line, "", at(0, 0), back);
    let replace = whole(REPLACE, at(0, 99), at(1, 2), "X");
    let back = whole(REPLACE, at(0, 4), at(0, 5), "\ncd");
    check("ab\ncdef", replace, "abefX", at(0, 5), back);
}

fn join_examples() {
    let joined = join(JOIN_LINES_SPACED, 0, 0);
    let back = listed(SPLIT_LINES, at(0, 0), "", &[1], &[0]);
    check("a\n\nb", joined, "a\nb", at(0, 0), back);
    let joined = join(JOIN_LINES_SPACED, 0, 5);
    let back = listed(SPLIT_LINES, at(0, 0), "", &[1, 3], &[1, 1]);
    check("a\nb\nc", joined, "a b c", at(0, 0), back);
    let split = listed(SPLIT_LINES, at(0, 0), "", &[3], &[1]);
    let back = join(JOIN_LINES_SPACED, 0, 1);
    check("abc", split, "abc\n", at(0, 0), back);
}

fn block_examples() {
    let block = listed(INSERT_BLOCK, at(0, 2), "XY", &[1, 1], &[]);
    let back = listed(DELETE_BLOCK_CHUNKS, at(0, 2), "", &[1, 1], &[0, 1]);
    check("abc\nd", block, "abXc\nd Y", at(0, 2), back);
    let cut = whole(DELETE_BLOCK, at(0, 2), at(1, 2), "");
    let back = listed(INSERT_BLOCK, at(0, 2), "c", &[1, 0], &[]);
    check("abc\nd", cut, "ab\nd", at(0, 2), back.clone());
    let again = listed(DELETE_BLOCK_CHUNKS, at(0, 2), "", &[1, 0], &[0, 1]);
    check("ab\nd", back, "abc\nd ", at(0, 2), again);
}

fn selection_examples() {
    let sel = |anchor, head| bridge::sel(Sel { anchor, head });
    let two = vec![sel(at(0, 0), at(0, 3)), sel(at(0, 5), at(0, 3))];
    assert_eq!(merge_overlapping(two), [sel(at(0, 0), at(0, 5))]);
    let joining = call("ab\ncd", join(JOIN_LINES_SPACED, 0, 1));
    let shifted = Shift::over(&joining).position(at(1, 2));
    assert_eq!(shifted, Ok(Some(at(0, 5))));
}

#[test]
fn marked_examples_are_the_originals() {
    flat_examples();
    join_examples();
    block_examples();
    selection_examples();
}

#[test]
fn demand_3_says_what_can_be_undone() {
    let says = |text, whole| law::undoable(&call(text, whole)).unwrap();
    assert!(!says(
        "ab\ncdef",
        whole(DELETE_CHAR, at(0, 99), at(1, 2), "")
    ));
    assert!(says("ab\ncdef", whole(DELETE_CHAR, at(9, 9), at(0, 2), "")));
    assert!(says(
        "abc\nde\n",
        whole(DELETE_BLOCK, at(1, 5), at(0, 2), "")
    ));
    assert!(!says(
        "abc\nd\n",
        whole(DELETE_BLOCK, at(1, 5), at(0, 2), "")
    ));
    assert!(!says(
        "a",
        listed(DELETE_BLOCK_CHUNKS, at(0, 1), "", &[0], &[1])
    ));
}

fn check_refusal(text: &str, whole: Whole, number: u32) {
    let refusal = law::applied(&call(text, whole.clone())).err();
    assert_eq!(
        refusal.map_or(0, |it| it.number()),
        number,
        "{text:?} {whole}"
    );
}

#[test]
fn refusals_are_those_of_the_table_and_the_readings() {
    let split = |columns: &[u32], flags: &[u32]| listed(SPLIT_LINES, at(0, 0), "", columns, flags);
    check_refusal("", split(&[0; 258], &[]), 3);
    check_refusal("", split(&[&[0; 257][..], &[1_000_001]].concat(), &[]), 2);
    check_refusal("abc", split(&[3, 1], &[1, 0]), 7);
    check_refusal("abc", split(&[1, 3], &[0, 1]), 0);
    let block = |top, bottom| whole(DELETE_BLOCK, at(top, 0), at(bottom, 0), "");
    check_refusal("", block(0, 256), 3);
    check_refusal("", block(1_000_000, 999_745), 0);
    let all = join(JOIN_LINES, 0, 1_000_000);
    check_refusal(&"\n".repeat(256), all.clone(), 0);
    check_refusal(&"\n".repeat(257), all, 3);
    check_refusal("", listed(INSERT_BLOCK, at(0, 0), "\n", &[1], &[]), 4);
    check_refusal("", listed(INSERT_BLOCK, at(0, 0), "ab", &[1], &[]), 4);
    check_refusal("", listed(INSERT_BLOCK, at(0, 16_384), "a", &[1], &[]), 8);
    let far = whole(INSERT_STR, at(0, 1_000_001), at(0, 0), "\r");
    check_refusal("a\u{b}", far.clone(), 1);
    check_refusal("a", far, 2);
    check_refusal("a", whole(11, at(0, 0), at(0, 0), ""), 10);
    let mut short = call("ab", whole(DELETE_CHAR, at(0, 0), at(0, 2), ""));
    (short.room.payload, short.room.first, short.room.second) = (1, 0, 0);
    assert_eq!(law::applied(&short), Err(law::refusal(9)));
    short.room.payload = 2;
    assert!(law::applied(&short).is_ok());
}

#[test]
fn shifts_are_refused_where_ends_are_reversed() {
    let backward = call("ab", whole(DELETE_CHAR, at(0, 1), at(0, 0), ""));
    assert_eq!(
        Shift::over(&backward).position(at(0, 2)),
        Err(law::refusal(6))
    );
    let level = call("ab", whole(DELETE_LINE, at(0, 1), at(0, 0), ""));
    assert_eq!(Shift::over(&level).position(at(0, 2)), Ok(Some(at(0, 0))));
    let split = call("ab", listed(SPLIT_LINES, at(0, 0), "", &[], &[]));
    assert_eq!(Shift::over(&split).position(at(0, 2)), Ok(None));
    assert_eq!(
        Shift::over(&split).position(at(0, 1_000_001)),
        Err(law::refusal(2))
    );
}

#[test]
fn boxes_count_cells_and_are_refused_by_1_then_2() {
    let boxed = |text: &str, cells, tab| law::boxed(&chars(text), text.chars().count(), cells, tab);
    assert_eq!(boxed("aあ", 2, 8), Ok(Some(at(0, 1))));
    assert_eq!(boxed("aあ", 3, 8), Ok(None));
    assert_eq!(boxed("あ", 1, 8), Ok(Some(at(0, 0))));
    assert_eq!(boxed("a\t", 4, 8), Ok(Some(at(0, 1))));
    assert_eq!(boxed("a\t", 8, 8), Ok(None));
    assert_eq!(boxed("ab\tc", 4, 2), Ok(Some(at(0, 3))));
    assert_eq!(boxed("\t", 0, 1), Ok(Some(at(0, 0))));
    assert_eq!(boxed("\t", 0, 0), Ok(Some(at(0, 0))));
    assert_eq!(boxed("a\tb", 3, 0), Ok(None));
    assert_eq!(boxed("\n\nab\nabc", 2, 0), Ok(Some(at(3, 2))));
    assert_eq!(boxed("", 0, 0), Ok(None));
    assert_eq!(boxed("\t", 1_000_000, 1_000_000), Ok(None));
    assert_eq!(boxed("", 1_000_001, 0), Err(law::refusal(2)));
    assert_eq!(boxed("", 0, 1_000_001), Err(law::refusal(2)));
    assert_eq!(boxed("\r", u32::MAX, u32::MAX), Err(law::refusal(1)));
    assert_eq!(law::boxed(&[], 1, 1_000_001, 0), Err(law::refusal(1)));
}

fn check_script(input: &str, output: &str) {
    let printed = String::from_utf8(printed(input.as_bytes())).unwrap();
    assert_eq!(printed, output, "{input}");
}

#[test]
fn the_run_of_frames_prints_what_document_01_shows() {
    check_script(
        "0161620a6364\n0200000001000000010000000100000002\n100000000000000001580a\n",
        "00110000000000000000010000000100000000\n0161580a620a6364\n0200000002000000010000000200000002\n",
    );
}

#[test]
fn lines_out_of_place_or_form_print_0a() {
    let mark = "0200000000000000000000000000000000\n";
    let insertion = "10000000000000000061\n";
    let taken_back = "00110000000000000000000000000000000001\n";
    check_script("", "01\n");
    check_script("\n", "0a\n01\n");
    check_script("0161", "0a\n01\n");
    check_script("0161\n0162\n", "0a\n0161\n");
    check_script("02ff\n0161\n", "0a\n0161\n");
    check_script("01ff\n0161\n", "05\n0a\n01\n");
    check_script("010b\n", "01\n01\n");
    check_script(&format!("01{}\n", "61".repeat(4097)), "08\n01\n");
    check_script(&format!("{mark}0161\n"), &format!("0a\n01\n{mark}"));
    check_script(&mark.repeat(65), &format!("0a\n01\n{}", mark.repeat(64)));
    check_script(
        &format!("{insertion}{mark}"),
        &format!("{taken_back}0a\n0161\n"),
    );
    check_script(
        &format!("{mark}1300000000\n"),
        "0012000000000000000000\n01\n03\n",
    );
}

#[test]
fn malformed_lines_are_10_and_ill_formed_ones_5_with_their_place() {
    let malformed = [
        "",
        "1",
        "1000000000000000006",
        "1G",
        "00",
        "03",
        "17",
        "10000000",
        "1103",
        "1200000000000000000002",
        "120000000000000000000000",
        "13000000000000000002",
        "130000000000",
        "15000000000000000000000002",
        "1600000000000000000000000000",
        "0161",
        "10 0000000000000000",
    ];
    for line in malformed {
        assert_eq!(read_edit(line.as_bytes()), Err(law::refusal(10)), "{line}");
    }
    let long = format!("100000000000000000{}", "61".repeat(18_424));
    assert_eq!(read_edit(long.as_bytes()), Err(law::refusal(10)));
    assert!(read_edit(&long.as_bytes()[..36_864]).is_ok());
    let ill_formed = [
        ("10000000000000000061ff", 10),
        ("14000000000000000000000000000000006162c3", 19),
        ("15000000000000000000000001c300000001a9", 13),
    ];
    for (line, offset) in ill_formed {
        assert_eq!(
            read_edit(line.as_bytes()),
            Err(Refusal::BadUtf8 { offset }),
            "{line}"
        );
    }
}

#[test]
fn edits_are_read_back_from_their_lines() {
    let mut random = Random::new(3);
    for _ in 0..3000 {
        let text = cases::short_text(&mut random);
        let kind = random.between(1, 10) as u32;
        let mut edit = cases::whole(&mut random, kind, &law::row_lengths(&text));
        framed::make_framed(&mut edit);
        if [JOIN_LINES, JOIN_LINES_SPACED, SPLIT_LINES].contains(&kind) {
            edit.edit.start.col = 0;
        }
        assert_eq!(read_edit(&edit_line(&edit).unwrap()), Ok(edit));
        let line = hex(&text_frame(&text));
        assert!(matches!(form(&line), Some(Form::Text(it)) if it.decoded() == Ok(text)));
    }
}

#[test]
fn the_sample_has_every_kind_and_its_answers() {
    let (questions, answers) = (sample::questions(), sample::answers());
    assert_eq!(questions.len() / 2, answers.len() / 3);
    let mut kinds = [0; 11];
    for (question, answer) in questions.chunks(2).zip(answers.chunks(3)) {
        let edit = read_edit(question[1].as_bytes()).unwrap();
        kinds[edit.edit.kind as usize] += 1;
        let script = format!("{}\n{}\n", question[0], question[1]);
        let printed = String::from_utf8(printed(script.as_bytes())).unwrap();
        assert_eq!(printed, format!("00{}\n{}\n", answer[1], answer[2]));
        assert!(answer[0].starts_with("cursor ") && answer[0].ends_with(" changes 1"));
    }
    assert_eq!(kinds[1..], [30; 10]);
}
