//! `apply_frame` and `write_edit` beside the frames written and read in plain Rust.

use std::fmt;

use winchbarn::Sel;
use winchbarn::raw::{self, Applied, DELETE_BLOCK_CHUNKS, SPLIT_LINES};

use crate::bridge::Done;
use crate::bruises::bruise;
use crate::calls::{Call, Whole};
use crate::cases;
use crate::damage::damage;
use crate::forms;
use crate::frames;
use crate::guard::Guarded;
use crate::law::{self, Answer, refusal};
use crate::lend::{Given, Written};
use crate::limits;
use crate::random::Random;
use crate::small;
use crate::tally::{Input, Tally, Verdict};
use crate::told;
use crate::work::Work;

/// A line for a call's view and slices. The edit that stands in the call is not lent.
pub struct Line<'a> {
    pub call: &'a Call,
    pub line: &'a [u8],
}

/// An edit to be written to a slice of this length.
pub struct Writing<'a> {
    pub whole: &'a Whole,
    pub room: usize,
}

impl Line<'_> {
    fn expected(&self) -> Answer<Done> {
        let whole = forms::read_edit(self.line)?;
        law::applied(&Call {
            whole,
            ..self.call.clone()
        })
    }

    pub fn compare(&self) -> Verdict {
        let line = Guarded::of(self.line);
        let mut written = Written::of(&self.call.buffer, self.call.room);
        let answer = self.apply(&line, &mut written);
        line.expect_kept("line")?;
        let expected = self.expected();
        written.expect(self.call.view, expected.as_ref().map_err(|it| *it), answer)
    }

    fn apply(&self, line: &Guarded<u8>, written: &mut Written) -> Applied {
        raw::apply_frame(
            written.text.lent_mut(),
            self.call.view,
            line.lent(),
            written.payload.lent_mut(),
            written.first.lent_mut(),
            written.second.lent_mut(),
        )
    }
}

impl Writing<'_> {
    fn expected(&self) -> Answer<Vec<u8>> {
        let line = frames::edit_line(self.whole)?;
        if line.len() > self.room {
            return Err(refusal(8));
        }
        Ok(line)
    }

    pub fn compare(&self) -> Verdict {
        let given = Given::of(self.whole);
        let mut out = Guarded::<u8>::room(self.room);
        let answer = raw::write_edit(
            self.whole.edit,
            given.payload.lent(),
            given.first.lent(),
            given.second.lent(),
            out.lent_mut(),
        );
        given.expect_kept()?;
        let expected = self.expected();
        let verdict = told::same(&told::length(&expected), told::counted, answer)?;
        out.expect("line", &expected.unwrap_or_default())?;
        Ok(verdict)
    }
}

impl fmt::Display for Line<'_> {
    fn fmt(&self, f: &mut fmt::Formatter<'_>) -> fmt::Result {
        let shown = &self.line[..self.line.len().min(400)];
        let line = String::from_utf8_lossy(shown);
        writeln!(f, "{}", self.call)?;
        write!(f, "line of {} bytes: {line}", self.line.len())
    }
}

impl Input for Line<'_> {
    fn size(&self) -> usize {
        self.call.size() + self.line.len()
    }
}

impl fmt::Display for Writing<'_> {
    fn fmt(&self, f: &mut fmt::Formatter<'_>) -> fmt::Result {
        write!(f, "{}\nwritten to {} bytes", self.whole, self.room)
    }
}

impl Input for Writing<'_> {
    fn size(&self) -> usize {
        self.whole.size() + self.room
    }
}

/// Writes the edit in just enough room and in one digit less; then its line is applied in the call's place.
fn compare_both(tally: &mut Tally, call: &Call) {
    let whole = &call.whole;
    let line = frames::edit_line(whole);
    let enough = line.as_ref().map_or(16, Vec::len);
    for room in [enough, enough - 1] {
        let writing = Writing { whole, room };
        tally.note(&writing, writing.compare());
    }
    if let Ok(line) = line {
        let line = Line { call, line: &line };
        tally.note(&line, line.compare());
    }
}

/// All small edits of all small texts.
pub fn small(work: &mut Work) {
    let bounds = work.narrow_bounds();
    for text in small::texts(bounds) {
        small::edits(bounds, &text, &mut |whole| {
            compare_both(&mut work.tally, &Call::on(&text, whole));
        });
    }
}

/// A call with an edit that often has a frame.
pub fn any_call(random: &mut Random) -> Call {
    let mut call = match random.one_in(100) {
        true => limits::at_limit(random),
        false => cases::short_call(random),
    };
    if random.one_in(5) {
        bruise(random, &mut call);
    }
    if random.one_in(2) {
        make_framed(&mut call.whole);
    }
    let edited = law::edited(&call);
    cases::trim(random, &mut call, &edited);
    call
}

/// Makes lists and flags such that a frame can hold them.
pub fn make_framed(whole: &mut Whole) {
    match whole.edit.kind {
        SPLIT_LINES => {
            whole.second.resize(whole.first.len(), 0);
            whole
                .second
                .iter_mut()
                .for_each(|flag| *flag = (*flag).min(1));
        }
        DELETE_BLOCK_CHUNKS => whole.second.resize(whole.first.len(), 1),
        _ => {}
    }
}

pub fn random(work: &mut Work) {
    while work.tally.cases() < work.cases {
        let call = any_call(&mut work.random);
        compare_both(&mut work.tally, &call);
    }
}

/// Lines of edits, texts and marks with something wrong in them.
pub fn damaged(work: &mut Work) {
    for _ in 0..work.cases {
        let random = &mut work.random;
        let mut call = any_call(random);
        make_framed(&mut call.whole);
        let mut line = any_line(random, &call);
        for _ in 0..random.pick(&[1, 1, 1, 2, 3]) {
            damage(random, &mut line);
        }
        let line = Line {
            call: &call,
            line: &line,
        };
        work.tally.note(&line, line.compare());
    }
}

/// The line of the call's edit, or seldom one of a text or a mark.
pub fn any_line(random: &mut Random, call: &Call) -> Vec<u8> {
    let text = [0x61, 0x3042];
    match random.below(30) {
        0 => frames::hex(&frames::text_frame(&text)),
        1 => frames::hex(&frames::mark_frame(Sel::default())),
        _ => frames::edit_line(&call.whole).unwrap_or_default(),
    }
}
