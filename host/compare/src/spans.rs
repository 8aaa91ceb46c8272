//! `row_span` beside the original's `Selection`.

use std::fmt;

use winchbarn::{Position, Sel, Span, raw};

use crate::bridge::place;
use crate::calls::{ShownSel, at, weight};
use crate::law::{Answer, refusal};
use crate::merges::numbers;
use crate::random::Random;
use crate::tally::{Input, Verdict};
use crate::told;
use crate::work::Work;

/// A row, and a selection by the number of its kind.
pub struct Row {
    pub kind: u32,
    pub sel: Sel,
    pub row: u32,
}

/// The original's selection of this kind; refusal 10 where it is none.
pub fn selection(kind: u32, sel: Sel) -> Answer<original::Selection> {
    let (anchor, head) = (place(sel.anchor), place(sel.head));
    match kind {
        0 => Ok(original::Selection::Char { anchor, head }),
        1 => Ok(original::Selection::Line {
            anchor_row: anchor.row,
            head_row: head.row,
        }),
        2 => Ok(original::Selection::Block { anchor, head }),
        _ => Err(refusal(10)),
    }
}

impl Row {
    fn expected(&self) -> Answer<Span> {
        let span = selection(self.kind, self.sel)?.row_span(self.row as usize);
        Ok(match span {
            None => Span::Outside,
            Some((lo, usize::MAX)) => Span::Open { lo: lo as u32 },
            Some((lo, hi)) => Span::Closed {
                lo: lo as u32,
                hi: hi as u32,
            },
        })
    }

    pub fn compare(&self) -> Verdict {
        let answer = raw::row_span(self.kind, self.sel, self.row);
        told::same(&self.expected(), told::spanned, answer)
    }
}

impl fmt::Display for Row {
    fn fmt(&self, f: &mut fmt::Formatter<'_>) -> fmt::Result {
        let Self { kind, sel, row } = self;
        write!(f, "row {row} of kind {kind} from {}", ShownSel(*sel))
    }
}

impl Input for Row {
    fn size(&self) -> usize {
        weight(&numbers(self.sel)) + weight(&[self.row])
    }
}

/// All selections between a few positions, on each row there and around.
pub fn small(work: &mut Work) {
    let places: Vec<Position> = (1..4)
        .flat_map(|row| (0..3).map(move |col| at(row, col)))
        .collect();
    for anchor in &places {
        for head in &places {
            for row in 0..5 {
                for kind in 0..4 {
                    let sel = Sel {
                        anchor: *anchor,
                        head: *head,
                    };
                    let row = Row { kind, sel, row };
                    work.tally.note(&row, row.compare());
                }
            }
        }
    }
}

/// A number among few, or any, or one of the last.
pub fn any_number(random: &mut Random, breadth: usize) -> u32 {
    match random.below(10) {
        0 => random.value(),
        1 => u32::MAX - random.below(2) as u32,
        _ => random.below(breadth) as u32,
    }
}

pub fn random(work: &mut Work) {
    for _ in 0..work.cases {
        let random = &mut work.random;
        let breadth = random.pick(&[3, 10, 1000]);
        let mut number = || any_number(random, breadth);
        let sel = Sel {
            anchor: at(number(), number()),
            head: at(number(), number()),
        };
        let row = number();
        let kind = match random.below(50) {
            0 => random.value(),
            _ => random.below(3) as u32,
        };
        let row = Row { kind, sel, row };
        work.tally.note(&row, row.compare());
    }
}
