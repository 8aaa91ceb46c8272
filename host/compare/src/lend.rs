//! An edit's slices, lent between guards and looked over after the call.

use winchbarn::View;
use winchbarn::raw::Applied;

use crate::bridge::Done;
use crate::calls::{Room, Whole};
use crate::guard::Guarded;
use crate::law::Answer;
use crate::tally::Verdict;
use crate::told;

/// The slices of an edit that are only read.
pub struct Given {
    pub payload: Guarded<u32>,
    pub first: Guarded<u32>,
    pub second: Guarded<u32>,
}

impl Given {
    pub fn of(whole: &Whole) -> Self {
        Self {
            payload: Guarded::of(&whole.payload),
            first: Guarded::of(&whole.first),
            second: Guarded::of(&whole.second),
        }
    }

    pub fn expect_kept(&self) -> Result<(), String> {
        self.payload.expect_kept("payload")?;
        self.first.expect_kept("first list")?;
        self.second.expect_kept("second list")
    }
}

/// The slices that an edit may write.
pub struct Written {
    pub text: Guarded<u32>,
    pub payload: Guarded<u32>,
    pub first: Guarded<u32>,
    pub second: Guarded<u32>,
}

impl Written {
    pub fn of(buffer: &[u32], room: Room) -> Self {
        Self {
            text: Guarded::of(buffer),
            payload: Guarded::room(room.payload),
            first: Guarded::room(room.first),
            second: Guarded::room(room.second),
        }
    }

    pub fn expect_kept(&self) -> Result<(), String> {
        self.text.expect_kept("text")?;
        self.payload.expect_kept("inverse's payload")?;
        self.first.expect_kept("inverse's first list")?;
        self.second.expect_kept("inverse's second list")
    }

    fn expect_done(&self, view: View, done: &Done) -> Result<(), String> {
        let mut front = done.text.clone();
        front.resize(view.used.max(front.len()), 0);
        let inverse = &done.inverse;
        self.text.expect("text", &front)?;
        self.payload.expect("inverse's payload", &inverse.payload)?;
        self.first.expect("inverse's first list", &inverse.first)?;
        self.second.expect("inverse's second list", &inverse.second)
    }

    /// The answer and all that the edit may write are as expected of a view.
    pub fn expect(&self, view: View, expected: Answer<&Done>, answer: Applied) -> Verdict {
        let verdict = told::same(&expected, |it| told::applied(view, it), answer)?;
        match expected {
            Ok(done) => self.expect_done(view, done)?,
            Err(_) => self.expect_kept()?,
        }
        Ok(verdict)
    }
}
