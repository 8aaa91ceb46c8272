//! `apply_edit` and `undoable` beside the original and document 01.

use winchbarn::raw::{self, Applied, Said};

use crate::bridge::Done;
use crate::bruises::bruise;
use crate::calls::{Call, Room};
use crate::cases;
use crate::guard::Guarded;
use crate::law::{self, Answer};
use crate::lend::{Given, Written};
use crate::limits;
use crate::random::Random;
use crate::small;
use crate::tally::{Tally, Verdict};
use crate::told;
use crate::work::Work;

/// What stands behind a small text in its buffer.
const BEHIND: u32 = 0xbe;

/// Applies the call's edit and compares all that it answers and leaves.
pub fn compare(call: &Call, expected: Answer<&Done>) -> Verdict {
    let given = Given::of(&call.whole);
    let mut written = Written::of(&call.buffer, call.room);
    let answer = apply(call, &given, &mut written);
    given.expect_kept()?;
    written.expect(call.view, expected, answer)
}

pub fn apply(call: &Call, given: &Given, written: &mut Written) -> Applied {
    raw::apply_edit(
        written.text.lent_mut(),
        call.view,
        call.whole.edit,
        given.payload.lent(),
        given.first.lent(),
        given.second.lent(),
        written.payload.lent_mut(),
        written.first.lent_mut(),
        written.second.lent_mut(),
    )
}

/// The same on a view that is lent, which is then the answer's.
fn compare_in_place(call: &Call) -> Verdict {
    let given = Given::of(&call.whole);
    let mut written = Written::of(&call.buffer, call.room);
    let mut view = call.view;
    let answer = raw::apply_edit_in(
        written.text.lent_mut(),
        &mut view,
        call.whole.edit,
        given.payload.lent(),
        given.first.lent(),
        given.second.lent(),
        written.payload.lent_mut(),
        written.first.lent_mut(),
        written.second.lent_mut(),
    );
    given.expect_kept()?;
    if view != answer.view {
        return Err(format!("lent {view:?}\nanswered {:?}", answer.view));
    }
    let expected = law::applied(call);
    written.expect(call.view, expected.as_ref().map_err(|it| *it), answer)
}

pub fn compare_undoable(call: &Call) -> Verdict {
    told::same(&law::undoable(call), told::said, undoable(call)?)
}

/// The core's answer, once it is seen that nothing lent was written.
pub fn undoable(call: &Call) -> Result<Said, String> {
    let given = Given::of(&call.whole);
    let text = Guarded::of(&call.buffer);
    let answer = raw::undoable(
        text.lent(),
        call.view,
        call.whole.edit,
        given.payload.lent(),
        given.first.lent(),
        given.second.lent(),
    );
    given.expect_kept()?;
    text.expect_kept("text")?;
    Ok(answer)
}

/// Compares the call in more room than is needed, in just enough, and in each that is one short.
fn compare_in_rooms(tally: &mut Tally, call: &mut Call, edited: &Answer<Done>) {
    let Ok(done) = edited else {
        tally.note(call, compare(call, law::fitted(call, edited)));
        return;
    };
    let used = call.view.used;
    let length = done.text.len();
    let exact = Room::of(&done.inverse);
    let mut compare_in = |length: usize, room: Room| {
        call.buffer.resize(length, BEHIND);
        call.room = room;
        tally.note(call, compare(call, law::fitted(call, edited)));
    };
    compare_in(
        used.max(length) + 2,
        Room {
            payload: exact.payload + 2,
            first: exact.first + 2,
            second: exact.second + 2,
        },
    );
    compare_in(used.max(length), exact);
    if length > used {
        compare_in(length - 1, exact);
    }
    for short in one_short(exact) {
        compare_in(used.max(length), short);
    }
}

/// The rooms that lack one element in one of their slices.
fn one_short(exact: Room) -> impl Iterator<Item = Room> {
    let less = |size: usize| size.checked_sub(1);
    let payload = less(exact.payload).map(|payload| Room { payload, ..exact });
    let first = less(exact.first).map(|first| Room { first, ..exact });
    let second = less(exact.second).map(|second| Room { second, ..exact });
    [payload, first, second].into_iter().flatten()
}

/// All small edits of all small texts.
pub fn small(work: &mut Work) {
    let bounds = work.bounds();
    for text in small::texts(bounds) {
        small::edits(bounds, &text, &mut |whole| {
            let mut call = Call::on(&text, whole);
            let edited = law::edited(&call);
            compare_in_rooms(&mut work.tally, &mut call, &edited);
        });
    }
}

/// All small edits of all small texts, judged for undo.
pub fn small_undoable(work: &mut Work) {
    let bounds = work.bounds();
    for text in small::texts(bounds) {
        small::edits(bounds, &text, &mut |whole| {
            let call = Call::on(&text, whole);
            work.tally.note(&call, compare_undoable(&call));
        });
    }
}

fn compare_trimmed(work: &mut Work, mut call: Call) {
    let edited = law::edited(&call);
    cases::trim(&mut work.random, &mut call, &edited);
    work.tally
        .note(&call, compare(&call, law::fitted(&call, &edited)));
}

pub fn random(work: &mut Work) {
    for _ in 0..work.cases {
        let call = cases::short_call(&mut work.random);
        compare_trimmed(work, call);
    }
}

/// A short call with something wrong in it.
fn bruised(random: &mut Random) -> Call {
    let mut call = cases::short_call(random);
    bruise(random, &mut call);
    call
}

pub fn wrong(work: &mut Work) {
    for _ in 0..work.cases {
        let call = bruised(&mut work.random);
        compare_trimmed(work, call);
    }
}

/// Edits on a view that is lent, of which some are wrong.
pub fn in_place(work: &mut Work) {
    for _ in 0..work.cases {
        let random = &mut work.random;
        let mut call = match random.one_in(3) {
            true => bruised(random),
            false => cases::short_call(random),
        };
        let edited = law::edited(&call);
        cases::trim(random, &mut call, &edited);
        work.tally.note(&call, compare_in_place(&call));
    }
}

pub fn at_limits(work: &mut Work) {
    for _ in 0..work.cases {
        let mut call = limits::at_limit(&mut work.random);
        if work.random.one_in(4) {
            bruise(&mut work.random, &mut call);
        }
        compare_trimmed(work, call);
    }
}

pub fn long_texts(work: &mut Work) {
    for _ in 0..work.cases {
        let call = limits::long_text(&mut work.random);
        compare_trimmed(work, call);
    }
}

pub fn random_undoable(work: &mut Work) {
    for _ in 0..work.cases {
        let random = &mut work.random;
        let call = match random.below(100) {
            0 => limits::at_limit(random),
            1..20 => bruised(random),
            _ => cases::short_call(random),
        };
        work.tally.note(&call, compare_undoable(&call));
    }
}
