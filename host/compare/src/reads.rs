//! Lines read one by one, and texts and marks written as lines, beside the frames in plain Rust.

use std::fmt;

use winchbarn::{Sel, raw};

use crate::calls::{Room, Shown, ShownSel, at, weight};
use crate::cases;
use crate::damage::damage;
use crate::forms::{self, Form};
use crate::framed;
use crate::frames::{self, DIGIT_LIMIT, TEXT, hex};
use crate::guard::Guarded;
use crate::law::{Answer, refusal};
use crate::merges::numbers;
use crate::random::Random;
use crate::tally::{Input, Verdict};
use crate::told;
use crate::utf8;
use crate::work::Work;

/// A line, and the room for what it holds; a text goes where an edit's payload does.
pub struct Reading<'a> {
    pub line: &'a [u8],
    pub room: Room,
}

/// A text to be written to a slice of this length.
pub struct TextWriting {
    pub text: Vec<u32>,
    pub room: usize,
}

/// A mark to be written to a slice of this length.
pub struct MarkWriting {
    pub mark: Sel,
    pub room: usize,
}

/// What was read, unless a slice is too short for it.
fn fitted<T>(read: T, fits: bool) -> Answer<T> {
    if fits { Ok(read) } else { Err(refusal(8)) }
}

impl Reading<'_> {
    pub fn compare_edit(&self) -> Verdict {
        let Room {
            payload,
            first,
            second,
        } = self.room;
        let line = Guarded::of(self.line);
        let mut slices = [payload, first, second].map(Guarded::<u32>::room);
        let [payload, first, second] = &mut slices;
        let answer = raw::read_edit(
            line.lent(),
            payload.lent_mut(),
            first.lent_mut(),
            second.lent_mut(),
        );
        line.expect_kept("line")?;
        let expected = forms::read_edit(self.line).and_then(|whole| {
            let fits = self.room.holds(Room::of(&whole));
            fitted(whole, fits)
        });
        let verdict = told::same(&expected, told::framed, answer)?;
        let whole = expected.unwrap_or_default();
        payload.expect("payload", &whole.payload)?;
        first.expect("first list", &whole.first)?;
        second.expect("second list", &whole.second)?;
        Ok(verdict)
    }

    fn text(&self) -> Answer<Vec<u32>> {
        let Some(Form::Text(piece)) = forms::form(self.line) else {
            return Err(refusal(10));
        };
        let text = piece.decoded()?;
        let fits = text.len() <= self.room.payload;
        fitted(text, fits)
    }

    pub fn compare_text(&self) -> Verdict {
        let line = Guarded::of(self.line);
        let mut out = Guarded::<u32>::room(self.room.payload);
        let answer = raw::read_text(line.lent(), out.lent_mut());
        line.expect_kept("line")?;
        let expected = self.text();
        let verdict = told::same(&told::length(&expected), told::counted, answer)?;
        out.expect("text", &expected.unwrap_or_default())?;
        Ok(verdict)
    }

    pub fn compare_mark(&self) -> Verdict {
        let line = Guarded::of(self.line);
        let answer = raw::read_mark(line.lent());
        line.expect_kept("line")?;
        let expected = match forms::form(self.line) {
            Some(Form::Mark(sel)) => Ok(Some(sel)),
            _ => Err(refusal(10)),
        };
        told::same(&expected, told::sel_placed, answer)
    }
}

/// The digits of a frame, unless they are too many.
fn line_of(frame: &[u8], room: usize) -> Answer<Vec<u8>> {
    let line = hex(frame);
    let fits = line.len() <= room.min(DIGIT_LIMIT);
    fitted(line, fits)
}

/// The answer and what stands in the output are as expected.
fn expect_line(out: &Guarded<u8>, expected: Answer<Vec<u8>>, answer: raw::Count) -> Verdict {
    let verdict = told::same(&told::length(&expected), told::counted, answer)?;
    out.expect("line", &expected.unwrap_or_default())?;
    Ok(verdict)
}

impl TextWriting {
    fn expected(&self) -> Answer<Vec<u8>> {
        let text = frames::encoded(&self.text)?;
        line_of(&[&[TEXT], &text[..]].concat(), self.room)
    }

    pub fn compare(&self) -> Verdict {
        let text = Guarded::of(&self.text);
        let mut out = Guarded::<u8>::room(self.room);
        let answer = raw::write_text(text.lent(), out.lent_mut());
        text.expect_kept("text")?;
        expect_line(&out, self.expected(), answer)
    }
}

impl MarkWriting {
    fn expected(&self) -> Answer<Vec<u8>> {
        line_of(&frames::mark_frame(self.mark), self.room)
    }

    pub fn compare(&self) -> Verdict {
        let mut out = Guarded::<u8>::room(self.room);
        let answer = raw::write_mark(self.mark, out.lent_mut());
        expect_line(&out, self.expected(), answer)
    }
}

impl fmt::Display for Reading<'_> {
    fn fmt(&self, f: &mut fmt::Formatter<'_>) -> fmt::Result {
        let shown = &self.line[..self.line.len().min(400)];
        let line = String::from_utf8_lossy(shown);
        write!(f, "line of {} bytes: {line}", self.line.len())?;
        write!(f, "\nroom {:?}", self.room)
    }
}

impl Input for Reading<'_> {
    fn size(&self) -> usize {
        self.line.len()
    }
}

impl fmt::Display for TextWriting {
    fn fmt(&self, f: &mut fmt::Formatter<'_>) -> fmt::Result {
        write!(f, "{} written to {} bytes", Shown(&self.text), self.room)
    }
}

impl Input for TextWriting {
    fn size(&self) -> usize {
        self.text.len()
    }
}

impl fmt::Display for MarkWriting {
    fn fmt(&self, f: &mut fmt::Formatter<'_>) -> fmt::Result {
        write!(f, "{} written to {} bytes", ShownSel(self.mark), self.room)
    }
}

impl Input for MarkWriting {
    fn size(&self) -> usize {
        weight(&numbers(self.mark))
    }
}

/// As much, or one more or less.
fn about(random: &mut Random, enough: usize) -> usize {
    (enough + random.pick(&[0, 0, 0, 1, 2])).saturating_sub(random.pick(&[0, 0, 0, 0, 1]))
}

/// About the room that the line takes; a little where it takes none.
fn any_room(random: &mut Random, line: &[u8]) -> Room {
    let exact = match forms::form(line) {
        Some(Form::Text(piece)) => Room {
            payload: piece.decoded().map_or(3, |text| text.len()),
            ..Room::default()
        },
        _ => forms::read_edit(line).map_or_else(|_| Room::default(), |whole| Room::of(&whole)),
    };
    Room {
        payload: about(random, exact.payload),
        first: about(random, exact.first),
        second: about(random, exact.second),
    }
}

fn any_mark(random: &mut Random) -> Sel {
    let mut value = || random.value();
    Sel {
        anchor: at(value(), value()),
        head: at(value(), value()),
    }
}

fn any_line(random: &mut Random) -> Vec<u8> {
    match random.below(4) {
        0 => hex(&frames::text_frame(&cases::short_text(random))),
        1 => hex(&frames::mark_frame(any_mark(random))),
        _ => {
            let mut call = framed::any_call(random);
            framed::make_framed(&mut call.whole);
            framed::any_line(random, &call)
        }
    }
}

/// Lines of edits, texts and marks, of which some have something wrong in them, each read in all three ways.
pub fn random(work: &mut Work) {
    while work.tally.cases() < work.cases {
        let random = &mut work.random;
        let mut line = any_line(random);
        for _ in 0..random.pick(&[0, 0, 1, 2]) {
            damage(random, &mut line);
        }
        let room = any_room(random, &line);
        let reading = Reading { line: &line, room };
        work.tally.note(&reading, reading.compare_edit());
        work.tally.note(&reading, reading.compare_text());
        work.tally.note(&reading, reading.compare_mark());
    }
}

/// Texts with values that are no scalars here and there, and any marks.
pub fn written(work: &mut Work) {
    while work.tally.cases() < work.cases {
        let random = &mut work.random;
        let text = utf8::any_values(random);
        let bytes = frames::encoded(&text).map_or(0, |it| it.len());
        let room = about(random, 2 + 2 * bytes);
        let writing = TextWriting { text, room };
        work.tally.note(&writing, writing.compare());
        let mark = any_mark(random);
        let room = about(random, 34);
        let writing = MarkWriting { mark, room };
        work.tally.note(&writing, writing.compare());
    }
}
