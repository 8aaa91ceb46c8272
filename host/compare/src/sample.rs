//! A sample of the original's answers, for a program that replays it.

use winchbarn::raw::{DELETE_BLOCK_CHUNKS, INSERT_STR};

use crate::bridge::Done;
use crate::calls::{Call, Whole};
use crate::cases;
use crate::framed::make_framed;
use crate::frames::{edit_line, hex, text_frame};
use crate::law::{self, row_lengths};
use crate::random::Random;

const SEED: u64 = 1;
const OF_EACH_KIND: usize = 30;

/// A text, an edit of it that has a frame, and what the original makes of both.
struct Case {
    text: Vec<u32>,
    whole: Whole,
    done: Done,
}

/// The next edit of this kind that document 01 accepts.
fn case(random: &mut Random, kind: u32) -> Case {
    loop {
        let length = random.below(40);
        let text = cases::text(random, length);
        let mut whole = cases::whole(random, kind, &row_lengths(&text));
        make_framed(&mut whole);
        if let Ok(done) = law::edited(&Call::on(&text, whole.clone())) {
            return Case { text, whole, done };
        }
    }
}

/// Cases of every kind that has a frame.
fn cases() -> Vec<Case> {
    let mut random = Random::new(SEED);
    let kinds = (INSERT_STR..=DELETE_BLOCK_CHUNKS).cycle();
    let count = OF_EACH_KIND * 10;
    kinds
        .take(count)
        .map(|kind| case(&mut random, kind))
        .collect()
}

fn text_line(text: &[u32]) -> String {
    String::from_utf8(hex(&text_frame(text))).expect("digits")
}

fn line_of(whole: &Whole) -> String {
    String::from_utf8(edit_line(whole).expect("a frame")).expect("digits")
}

/// For each case its text and its edit, as the frames of a script.
pub fn questions() -> Vec<String> {
    let lines = |case: Case| [text_line(&case.text), line_of(&case.whole)];
    cases().into_iter().flat_map(lines).collect()
}

/// For each case the original's cursor and how often it counted a change, its inverse, and the text that it left.
pub fn answers() -> Vec<String> {
    let lines = |case: Case| {
        let Done {
            text,
            cursor,
            changes,
            inverse,
        } = case.done;
        let numbers = format!("cursor {} {} changes {changes}", cursor.row, cursor.col);
        [numbers, line_of(&inverse), text_line(&text)]
    };
    cases().into_iter().flat_map(lines).collect()
}
