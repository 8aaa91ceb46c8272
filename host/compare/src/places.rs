//! `clamp_position` beside document 01's words.

use std::fmt;

use winchbarn::{Position, raw};

use crate::calls::{Shown, ShownPlace, weight};
use crate::cases;
use crate::guard::Guarded;
use crate::law::{self, Answer, refusal};
use crate::random::Random;
use crate::small;
use crate::tally::{Input, Verdict};
use crate::told;
use crate::work::Work;

/// A buffer, how much of it is used, and a position in it.
pub struct Place {
    pub buffer: Vec<u32>,
    pub used: usize,
    pub pos: Position,
}

impl Place {
    fn expected(&self) -> Answer<Option<Position>> {
        if law::bad_text(&self.buffer, self.used) {
            return Err(refusal(1));
        }
        let lengths = law::row_lengths(&self.buffer[..self.used]);
        Ok(Some(law::clamped(&lengths, self.pos)))
    }

    pub fn compare(&self) -> Verdict {
        let buffer = Guarded::of(&self.buffer);
        let answer = raw::clamp_position(buffer.lent(), self.used, self.pos);
        buffer.expect_kept("text")?;
        told::same(&self.expected(), told::placed, answer)
    }
}

impl fmt::Display for Place {
    fn fmt(&self, f: &mut fmt::Formatter<'_>) -> fmt::Result {
        let Self { buffer, used, pos } = self;
        write!(f, "buffer {}, used {used}", Shown(buffer))?;
        write!(f, ", position {}", ShownPlace(*pos))
    }
}

impl Input for Place {
    fn size(&self) -> usize {
        2 * self.buffer.len() + weight(&[self.pos.row, self.pos.col])
    }
}

/// All positions of small texts and a little past them.
pub fn small(work: &mut Work) {
    for text in small::texts(work.bounds()) {
        for pos in small::places(&text) {
            let place = Place {
                used: text.len(),
                buffer: text.clone(),
                pos,
            };
            work.tally.note(&place, place.compare());
        }
    }
}

/// Up to the limits and a little past.
pub fn any_length(random: &mut Random) -> usize {
    match random.below(200) {
        0 => random.between(16_382, 16_386),
        1 => random.below(12_000),
        _ => random.below(60),
    }
}

/// Up to any place of so long a buffer, or past its end.
pub fn any_used(random: &mut Random, length: usize) -> usize {
    let used = random.between(0, length);
    match random.below(20) {
        0 => length + random.between(1, 3),
        1 => length,
        _ => used,
    }
}

/// Puts a value that no text may have into one buffer of eight.
pub fn spoil(random: &mut Random, buffer: &mut [u32]) {
    if !buffer.is_empty() && random.one_in(8) {
        buffer[random.below(buffer.len())] = random.pick(&cases::INADMISSIBLE);
    }
}

/// A text of any length, used up to any place of it or past its end, and a position.
pub fn any_place(random: &mut Random) -> Place {
    let length = any_length(random);
    let mut buffer = cases::text(random, length);
    let mut pos = cases::place(random, &law::row_lengths(&buffer));
    match random.below(20) {
        0 => pos.row = random.value(),
        1 => pos.col = random.value(),
        _ => {}
    }
    let used = any_used(random, length);
    spoil(random, &mut buffer);
    Place { buffer, used, pos }
}

pub fn random(work: &mut Work) {
    for _ in 0..work.cases {
        let place = any_place(&mut work.random);
        work.tally.note(&place, place.compare());
    }
}
