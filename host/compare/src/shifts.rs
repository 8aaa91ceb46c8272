//! `shift_position` and `shift_sel` beside the original.

use std::fmt;

use winchbarn::raw::Place;
use winchbarn::{Position, Sel, raw};

use crate::bridge;
use crate::bruises::bruise;
use crate::calls::{Call, ShownSel, weight};
use crate::cases;
use crate::guard::Guarded;
use crate::law::{self, Answer};
use crate::lend::Given;
use crate::limits;
use crate::merges::numbers;
use crate::random::Random;
use crate::small;
use crate::tally::{Input, Tally, Verdict};
use crate::told;
use crate::work::{Extent, Work};

/// An edit over which positions are shifted: what is lent for it, and the original's form of it where it is not refused.
pub struct Shift<'a> {
    call: &'a Call,
    text: Guarded<u32>,
    given: Given,
    lengths: Vec<usize>,
    original: Option<original::Edit>,
}

/// What is shifted, with the edit.
pub struct Shifted<'a> {
    call: &'a Call,
    sel: Sel,
}

impl<'a> Shift<'a> {
    pub fn over(call: &'a Call) -> Self {
        let sound = law::given(call, &[]).is_ok() && !law::reversed(&call.whole);
        Self {
            call,
            text: Guarded::of(&call.buffer),
            given: Given::of(&call.whole),
            lengths: law::row_lengths(call.text()),
            original: sound.then(|| bridge::edit(&call.whole)),
        }
    }

    pub fn input(&self, sel: Sel) -> Shifted<'a> {
        Shifted {
            call: self.call,
            sel,
        }
    }

    fn judge(&self, places: &[Position]) -> Answer<&original::Edit> {
        law::given(self.call, places)?;
        self.original.as_ref().ok_or(law::refusal(6))
    }

    fn length(&self, row: usize) -> usize {
        self.lengths.get(row).copied().unwrap_or(0)
    }

    /// Where the original puts the selection; dropped whole where it cannot be followed.
    pub fn sel(&self, sel: Sel) -> Answer<Option<Sel>> {
        let edit = self.judge(&[sel.anchor, sel.head])?;
        let rows = self.lengths.len();
        let line_len = |row| self.length(row);
        let shifted = original::shift_sel(bridge::sel(sel), edit, line_len, rows);
        Ok(shifted.map(bridge::sel_back))
    }

    pub fn position(&self, pos: Position) -> Answer<Option<Position>> {
        let edit = self.judge(&[pos])?;
        let rows = self.lengths.len();
        let line_len = |row| self.length(row);
        let shifted = original::shift_position(bridge::place(pos), edit, line_len, rows);
        Ok(shifted.map(bridge::place_back))
    }

    pub fn expect_kept(&self) -> Result<(), String> {
        self.given.expect_kept()?;
        self.text.expect_kept("text")
    }

    pub fn compare_sel(&self, sel: Sel) -> Verdict {
        let answer = raw::shift_sel(
            self.text.lent(),
            self.call.view,
            self.call.whole.edit,
            self.given.payload.lent(),
            self.given.first.lent(),
            self.given.second.lent(),
            sel,
        );
        self.expect_kept()?;
        told::same(&self.sel(sel), told::sel_placed, answer)
    }

    /// Where the core puts the position.
    pub fn answer(&self, pos: Position) -> Place {
        raw::shift_position(
            self.text.lent(),
            self.call.view,
            self.call.whole.edit,
            self.given.payload.lent(),
            self.given.first.lent(),
            self.given.second.lent(),
            pos,
        )
    }

    pub fn compare_position(&self, pos: Position) -> Verdict {
        let answer = self.answer(pos);
        self.expect_kept()?;
        told::same(&self.position(pos), told::placed, answer)
    }
}

impl fmt::Display for Shifted<'_> {
    fn fmt(&self, f: &mut fmt::Formatter<'_>) -> fmt::Result {
        write!(f, "{}\nshifted {}", self.call, ShownSel(self.sel))
    }
}

impl Input for Shifted<'_> {
    fn size(&self) -> usize {
        self.call.size() + weight(&numbers(self.sel))
    }
}

/// All positions of small texts and a little past them, over all small edits; and selections of them. Flags and pads move
/// nothing, so that only a long run has them.
pub fn small(work: &mut Work) {
    let bounds = work.bounds();
    for text in small::texts(bounds) {
        let places = small::places(&text);
        let sels = some_sels(&places);
        small::edits(bounds, &text, &mut |whole| {
            if work.extent != Extent::Long && !whole.second.is_empty() {
                return;
            }
            let call = Call::on(&text, whole);
            compare_all(&mut work.tally, &call, &places, &sels);
        });
    }
}

/// Carets, and selections both ways and crossing rows.
fn some_sels(places: &[Position]) -> Vec<Sel> {
    let back = places.iter().rev();
    let sel = |(anchor, head): (&Position, &Position)| Sel {
        anchor: *anchor,
        head: *head,
    };
    places.iter().zip(back).step_by(3).map(sel).collect()
}

fn compare_all(tally: &mut Tally, call: &Call, places: &[Position], sels: &[Sel]) {
    let shift = Shift::over(call);
    for pos in places {
        let caret = Sel {
            anchor: *pos,
            head: *pos,
        };
        tally.note(&shift.input(caret), shift.compare_position(*pos));
    }
    for sel in sels {
        tally.note(&shift.input(*sel), shift.compare_sel(*sel));
    }
}

/// Each call with five positions and three selections, some of them too big.
pub fn random(work: &mut Work) {
    while work.tally.cases() < work.cases {
        let random = &mut work.random;
        let mut call = match random.one_in(200) {
            true => limits::at_limit(random),
            false => cases::short_call(random),
        };
        if random.one_in(5) {
            bruise(random, &mut call);
        }
        let lengths = law::row_lengths(call.text());
        let places: Vec<Position> = (0..5).map(|_| any_place(random, &lengths)).collect();
        let sels: Vec<Sel> = (0..3)
            .map(|_| Sel {
                anchor: any_place(random, &lengths),
                head: any_place(random, &lengths),
            })
            .collect();
        compare_all(&mut work.tally, &call, &places, &sels);
    }
}

fn any_place(random: &mut Random, lengths: &[usize]) -> Position {
    let mut pos = cases::place(random, lengths);
    match random.below(40) {
        0 => pos.row = random.pick(&cases::EDGES),
        1 => pos.col = random.pick(&cases::EDGES),
        _ => {}
    }
    pos
}
