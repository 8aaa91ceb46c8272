//! `merge_overlapping` beside the original.

use std::fmt;

use winchbarn::{Position, Sel, raw};

use crate::bridge;
use crate::calls::{at, weight};
use crate::guard::Guarded;
use crate::law::{Answer, refusal};
use crate::random::Random;
use crate::small::lists;
use crate::tally::{Input, Verdict};
use crate::told;
use crate::work::{Extent, Work};

pub const MERGE_LIMIT: usize = 4_096;

/// Selections as four numbers each, and the room that their merging has.
pub struct Merge {
    pub sels: Vec<u32>,
    pub room: usize,
}

pub fn numbers(sel: Sel) -> [u32; 4] {
    [sel.anchor.row, sel.anchor.col, sel.head.row, sel.head.col]
}

fn sel(numbers: &[u32]) -> Sel {
    Sel {
        anchor: at(numbers[0], numbers[1]),
        head: at(numbers[2], numbers[3]),
    }
}

impl Merge {
    fn expected(&self) -> Answer<Vec<u32>> {
        if self.sels.len() > MERGE_LIMIT {
            return Err(refusal(3));
        }
        if !self.sels.len().is_multiple_of(4) {
            return Err(refusal(4));
        }
        if self.room < self.sels.len() {
            return Err(refusal(9));
        }
        let sels = self.sels.chunks(4).map(|it| bridge::sel(sel(it)));
        let merged = original::merge_overlapping(sels.collect());
        let back = |sel| numbers(bridge::sel_back(sel));
        Ok(merged.into_iter().flat_map(back).collect())
    }

    pub fn compare(&self) -> Verdict {
        let sels = Guarded::of(&self.sels);
        let mut out = Guarded::room(self.room);
        let answer = raw::merge_overlapping(sels.lent(), out.lent_mut());
        sels.expect_kept("selections")?;
        let expected = self.expected();
        let count = told::length(&expected).map(|it| it / 4);
        let verdict = told::same(&count, told::counted, answer)?;
        out.expect("merged", &expected.unwrap_or_default())?;
        Ok(verdict)
    }
}

impl fmt::Display for Merge {
    fn fmt(&self, f: &mut fmt::Formatter<'_>) -> fmt::Result {
        let shown = &self.sels[..self.sels.len().min(200)];
        let numbers = self.sels.len();
        write!(f, "{numbers} numbers {shown:?}, room {}", self.room)
    }
}

impl Input for Merge {
    fn size(&self) -> usize {
        weight(&self.sels)
    }
}

/// All lists of up to three or four selections of a few positions, in either direction.
pub fn small(work: &mut Work) {
    let most = match work.extent {
        Extent::Tiny => 2,
        Extent::Quick => 3,
        Extent::Long => 4,
    };
    let places = [at(0, 0), at(0, 1), at(0, 2), at(1, 0)];
    let ends = |anchor| {
        places.iter().map(move |head| Sel {
            anchor,
            head: *head,
        })
    };
    let sels: Vec<Sel> = places.into_iter().flat_map(ends).collect();
    for list in lists(&sels, most) {
        let merge = Merge {
            sels: list.into_iter().flat_map(numbers).collect(),
            room: 4 * most,
        };
        work.tally.note(&merge, merge.compare());
    }
}

/// Positions among so many rows and columns, or any, or near the last.
fn any_place(random: &mut Random, breadth: usize) -> Position {
    match breadth {
        0 => at(random.value(), random.value()),
        1 => at(
            u32::MAX - random.below(2) as u32,
            u32::MAX - random.below(3) as u32,
        ),
        _ => at(random.below(breadth) as u32, random.below(breadth) as u32),
    }
}

/// A selection, often a short one, so that many stay apart.
fn any_sel(random: &mut Random, breadth: usize) -> Sel {
    let anchor = any_place(random, breadth);
    let mut head = any_place(random, breadth);
    if random.one_in(2) {
        head = at(
            anchor.row,
            anchor.col.saturating_add(random.below(4) as u32),
        );
    }
    match random.one_in(2) {
        true => Sel { anchor, head },
        false => Sel {
            anchor: head,
            head: anchor,
        },
    }
}

fn any_merge(random: &mut Random) -> Merge {
    let count = match random.below(40) {
        0 => random.between(1022, 1026),
        1 => random.below(1024),
        _ => random.below(24),
    };
    let breadth = random.pick(&[0, 1, 3, 8, 40, 2000]);
    let sels = (0..count).flat_map(|_| numbers(any_sel(random, breadth)));
    let mut sels: Vec<u32> = sels.collect();
    match random.below(20) {
        0 => sels.extend(vec![7; random.between(1, 3)]),
        1 => sels.sort_unstable(),
        _ => {}
    }
    let room = match random.below(20) {
        0 => sels.len().saturating_sub(1),
        1 => random.below(sels.len() + 1),
        _ => sels.len() + random.pick(&[0, 0, 1, 9]),
    };
    Merge { sels, room }
}

pub fn random(work: &mut Work) {
    for _ in 0..work.cases {
        let merge = any_merge(&mut work.random);
        work.tally.note(&merge, merge.compare());
    }
}
