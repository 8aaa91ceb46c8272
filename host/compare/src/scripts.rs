//! The program `scriptrun`, written in plain Rust over the original; and `run_script` beside it.

use std::fmt;

use winchbarn::raw::{DELETE_CHAR, DELETE_LINE, Edit, REPLACE};
use winchbarn::{Sel, View, raw};

use crate::calls::{Call, Room, Whole};
use crate::cases;
use crate::damage::damage;
use crate::forms::{self, Form, Piece};
use crate::framed::make_framed;
use crate::frames::{self, hex};
use crate::guard::Guarded;
use crate::law::{self, Answer, clamped, refusal, row_lengths};
use crate::random::Random;
use crate::shifts::Shift;
use crate::tally::{Input, Verdict};
use crate::told;
use crate::work::Work;

const BUFFER: usize = 4_096;
const MARKS: usize = 64;

/// A script as it stands between two lines.
#[derive(Default)]
struct Script {
    text: Vec<u32>,
    /// Those that were kept; none where a shift dropped one.
    marks: Vec<Option<Sel>>,
    /// Whether a line was sound, and whether one was an edit.
    begun: bool,
    edited: bool,
    printed: Vec<u8>,
}

impl Script {
    fn print(&mut self, bytes: &[u8]) {
        self.printed.extend(hex(bytes));
        self.printed.push(b'\n');
    }

    fn line(&mut self, line: &[u8]) {
        let sound = match forms::form(line) {
            Some(Form::Text(piece)) => self.text_line(&piece),
            Some(Form::Mark(mark)) => self.mark_line(mark),
            Some(Form::Edit {
                edit,
                pieces,
                first,
                second,
            }) => {
                self.edit_line(forms::whole_of(edit, &pieces, first, second));
                true
            }
            None => false,
        };
        self.begun |= sound;
        if !sound {
            self.print(&[10]);
        }
    }

    fn text_line(&mut self, piece: &Piece) -> bool {
        if self.begun {
            return false;
        }
        match loaded(piece) {
            Ok(text) => self.text = text,
            Err(refusal) => self.print(&[refusal.number() as u8]),
        }
        true
    }

    fn mark_line(&mut self, mark: Sel) -> bool {
        let lengths = row_lengths(&self.text);
        let in_text = |pos| clamped(&lengths, pos) == pos;
        let kept =
            !self.edited && self.marks.len() < MARKS && in_text(mark.anchor) && in_text(mark.head);
        if kept {
            self.marks.push(Some(mark));
        }
        kept
    }

    fn call(&self, whole: Whole) -> Call {
        let mut buffer = self.text.clone();
        buffer.resize(BUFFER, 0);
        Call {
            view: View {
                used: self.text.len(),
                ..View::default()
            },
            room: Room::of_demand_3(&buffer),
            buffer,
            whole: ordered(whole),
        }
    }

    fn edit_line(&mut self, whole: Answer<Whole>) {
        self.edited = true;
        match whole.and_then(|whole| self.apply(whole)) {
            Ok(inverse) => {
                let frame = frames::edit_frame(&inverse).expect("an inverse has a frame");
                self.print(&[&[0], &frame[..]].concat());
            }
            Err(refusal) => self.print(&[refusal.number() as u8]),
        }
    }

    /// Applies the edit, carries the marks over it and hands back the inverse.
    fn apply(&mut self, whole: Whole) -> Answer<Whole> {
        let call = self.call(whole);
        let done = law::applied(&call)?;
        let shift = Shift::over(&call);
        for mark in &mut self.marks {
            *mark = mark.and_then(|sel| shift.sel(sel).unwrap_or(None));
        }
        self.text = done.text;
        Ok(done.inverse)
    }

    fn ending(&mut self) {
        self.print(&frames::text_frame(&self.text));
        for mark in self.marks.clone() {
            match mark {
                Some(sel) => self.print(&frames::mark_frame(sel)),
                None => self.print(&[3]),
            }
        }
    }
}

/// The text of a text frame: 5, 1, then 8.
fn loaded(piece: &Piece) -> Answer<Vec<u32>> {
    let text = piece.decoded()?;
    if !text.iter().copied().all(law::admissible) {
        return Err(refusal(1));
    }
    if text.len() > BUFFER {
        return Err(refusal(8));
    }
    Ok(text)
}

fn ordered(mut whole: Whole) -> Whole {
    let Edit {
        kind, start, end, ..
    } = whole.edit;
    if [DELETE_CHAR, DELETE_LINE, REPLACE].contains(&kind) {
        (whole.edit.start, whole.edit.end) = (start.min(end), start.max(end));
    }
    whole
}

/// All that the script prints.
pub fn printed(input: &[u8]) -> Vec<u8> {
    let mut script = Script::default();
    let mut lines: Vec<&[u8]> = input.split(|byte| *byte == b'\n').collect();
    let unended = lines.pop().expect("a last part");
    for line in lines {
        script.line(line);
    }
    if !unended.is_empty() {
        script.print(&[10]);
    }
    script.ending();
    script.printed
}

/// A script, and how many bytes of room its output has more or less than it needs.
pub struct Scripted<'a> {
    pub input: &'a [u8],
    pub spare: isize,
}

impl Scripted<'_> {
    pub fn compare(&self) -> Verdict {
        let printed = printed(self.input);
        let room = printed.len().saturating_add_signed(self.spare);
        let expected = match room < printed.len() {
            true => Err(refusal(8)),
            false => Ok(printed.len()),
        };
        let input = Guarded::of(self.input);
        let mut out = Guarded::<u8>::room(room);
        let answer = raw::run_script(input.lent(), out.lent_mut());
        input.expect_kept("script")?;
        let front = expected.map_or(&[][..], |_| &printed);
        told::same(&expected, told::counted, answer)
            .and_then(|verdict| out.expect("output", front).map(|()| verdict))
            .map_err(|why| format!("{why}\nexpected\n{}", String::from_utf8_lossy(&printed)))
    }
}

impl fmt::Display for Scripted<'_> {
    fn fmt(&self, f: &mut fmt::Formatter<'_>) -> fmt::Result {
        let script = String::from_utf8_lossy(self.input);
        write!(f, "{script}\nwith room {:+}", self.spare)
    }
}

impl Input for Scripted<'_> {
    fn size(&self) -> usize {
        self.input.len()
    }
}

pub fn random(work: &mut Work) {
    for _ in 0..work.cases {
        let input = any_script(&mut work.random);
        let spare = work.random.pick(&[0, 0, 0, 0, 0, 7, -1, -20]);
        let script = Scripted {
            input: &input,
            spare,
        };
        work.tally.note(&script, script.compare());
    }
}

/// A text, some marks and some edits, with lines that are damaged, doubled or out of place.
fn any_script(random: &mut Random) -> Vec<u8> {
    let text = any_text(random);
    let lengths = row_lengths(&text);
    let mut lines = vec![hex(&frames::text_frame(&text))];
    let marks = match random.below(20) {
        0 => random.between(63, 66),
        _ => random.below(6),
    };
    for _ in 0..marks {
        lines.push(hex(&frames::mark_frame(cases::sel(random, &lengths))));
    }
    for _ in 0..random.below(10) {
        lines.extend(any_edit(random, &lengths));
    }
    for _ in 0..random.pick(&[0, 0, 1, 3]) {
        disturb(random, &mut lines);
    }
    let mut script = lines.join(&b'\n');
    if !random.one_in(12) {
        script.push(b'\n');
    }
    script
}

/// A text that is seldom about as long as a script's may be, or holds what is not admitted.
fn any_text(random: &mut Random) -> Vec<u32> {
    let length = match random.below(60) {
        0 => random.between(BUFFER - 2, BUFFER + 2),
        _ => random.below(60),
    };
    let mut text = cases::text(random, length);
    if length > 0 && random.one_in(40) {
        text[random.below(length)] = random.pick(&[0x0b, 0x0d, 0x85, 0x2028]);
    }
    text
}

/// An edit's line; none where a frame cannot hold the edit.
fn any_edit(random: &mut Random, lengths: &[usize]) -> Option<Vec<u8>> {
    let kind = cases::kind(random);
    let mut whole = cases::whole(random, kind, lengths);
    make_framed(&mut whole);
    if random.one_in(60) {
        let length = random.between(4_000, 4_200);
        whole.payload = cases::letters(random, length);
    }
    frames::edit_line(&whole).ok()
}

/// Damages a line, doubles it elsewhere or takes it away.
fn disturb(random: &mut Random, lines: &mut Vec<Vec<u8>>) {
    if lines.is_empty() {
        return;
    }
    let at = random.below(lines.len());
    match random.below(4) {
        0 => {
            let line = lines[at].clone();
            lines.insert(random.below(lines.len() + 1), line);
        }
        1 => drop(lines.remove(at)),
        _ => damage(random, &mut lines[at]),
    }
}
