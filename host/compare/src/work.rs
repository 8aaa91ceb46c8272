//! A group's work: how much there is, what it draws from, and what came of it.

use crate::random::Random;
use crate::small::{ALL, Bounds, FEW, MANY};
use crate::tally::Tally;

#[derive(Clone, Copy, Debug, PartialEq, Eq)]
pub enum Extent {
    /// For a run under valgrind.
    Tiny,
    Quick,
    Long,
}

pub struct Work {
    pub extent: Extent,
    /// How many random cases are to be run; what is exhaustive has its bounds instead.
    pub cases: u64,
    pub random: Random,
    pub tally: Tally,
}

impl Work {
    pub fn bounds(&self) -> &'static Bounds {
        match self.extent {
            Extent::Tiny => &FEW,
            Extent::Quick => &MANY,
            Extent::Long => &ALL,
        }
    }

    /// The same for calls that clear a hundred kilobytes each time.
    pub fn narrow_bounds(&self) -> &'static Bounds {
        match self.extent {
            Extent::Tiny | Extent::Quick => &FEW,
            Extent::Long => &MANY,
        }
    }
}
