//! `set_cursor` beside the original's own.

use std::fmt;

use winchbarn::{Position, View, raw};

use crate::bridge;
use crate::calls::{ShownPlace, at, weight};
use crate::guard::Guarded;
use crate::law::{self, Answer, refusal};
use crate::places::{self, Place};
use crate::small;
use crate::tally::{Input, Verdict};
use crate::told;
use crate::work::Work;

/// A position to set the cursor to, and where and at what count the view stands before.
pub struct Cursor {
    pub to: Place,
    pub from: Position,
    pub changes: u64,
}

impl Cursor {
    fn view(&self) -> View {
        View {
            used: self.to.used,
            cursor: self.from,
            changes: self.changes,
        }
    }

    fn expected(&self) -> Answer<View> {
        let Place { buffer, used, pos } = &self.to;
        if law::bad_text(buffer, *used) {
            return Err(refusal(1));
        }
        Ok(View {
            cursor: bridge::set_cursor(&buffer[..*used], *pos),
            ..self.view()
        })
    }

    pub fn compare(&self) -> Verdict {
        let buffer = Guarded::of(&self.to.buffer);
        let answer = raw::set_cursor(buffer.lent(), self.view(), self.to.pos);
        buffer.expect_kept("text")?;
        let told = |expected: &Answer<View>| told::viewed(self.view(), expected);
        told::same(&self.expected(), told, answer)
    }
}

impl fmt::Display for Cursor {
    fn fmt(&self, f: &mut fmt::Formatter<'_>) -> fmt::Result {
        let Self { to, from, changes } = self;
        write!(f, "{to}, cursor {}, changes {changes}", ShownPlace(*from))
    }
}

impl Input for Cursor {
    fn size(&self) -> usize {
        self.to.size() + weight(&[self.from.row, self.from.col])
    }
}

/// All positions of small texts and a little past them.
pub fn small(work: &mut Work) {
    for text in small::texts(work.bounds()) {
        for pos in small::places(&text) {
            let to = Place {
                used: text.len(),
                buffer: text.clone(),
                pos,
            };
            let cursor = Cursor {
                to,
                from: at(7, 9),
                changes: u64::MAX,
            };
            work.tally.note(&cursor, cursor.compare());
        }
    }
}

pub fn random(work: &mut Work) {
    for _ in 0..work.cases {
        let to = places::any_place(&mut work.random);
        let random = &mut work.random;
        let from = at(random.value(), random.value());
        let changes = random.word();
        let cursor = Cursor { to, from, changes };
        work.tally.note(&cursor, cursor.compare());
    }
}
