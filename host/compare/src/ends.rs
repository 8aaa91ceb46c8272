//! The operations of selections beside those of the original's `Sel` and `Selection`.

use std::fmt::{self, Debug};

use winchbarn::{Position, Sel, raw};

use crate::bridge::{place, place_back, sel, sel_back};
use crate::calls::{ShownSel, at, weight};
use crate::law::Answer;
use crate::merges::numbers;
use crate::random::Random;
use crate::spans::{any_number, selection};
use crate::tally::{Input, Tally, Verdict};
use crate::told;
use crate::work::Work;

/// Two selections; the first is taken by a kind too, and its head brought to the anchor of the other.
pub struct Ends {
    pub kind: u32,
    pub sel: Sel,
    pub other: Sel,
}

fn expect<T: PartialEq + Debug>(what: &str, expected: T, answer: T) -> Result<(), String> {
    if expected != answer {
        return Err(format!(
            "{what}: expected {expected:?}, answered {answer:?}"
        ));
    }
    Ok(())
}

impl Ends {
    /// What no kind is asked of.
    pub fn compare_sels(&self) -> Verdict {
        let (one, other) = (sel(self.sel), sel(self.other));
        let caret = sel_back(original::Sel::caret(one.head));
        expect("caret", caret, raw::sel_caret(self.sel.head))?;
        expect("is_caret", one.is_caret(), raw::sel_is_caret(self.sel))?;
        expect("start", place_back(one.start()), raw::sel_start(self.sel))?;
        expect("end", place_back(one.end()), raw::sel_end(self.sel))?;
        let overlaps = raw::sel_overlaps(self.sel, self.other);
        expect("overlaps", one.overlaps(&other), overlaps)?;
        Ok(0)
    }

    fn extended(&self) -> Answer<Option<Sel>> {
        let mut extended = selection(self.kind, self.sel)?;
        extended.extend_to(place(self.other.anchor));
        Ok(Some(Sel {
            anchor: place_back(extended.anchor()),
            head: place_back(extended.head()),
        }))
    }

    pub fn compare_kind(&self) -> Verdict {
        let taken = selection(self.kind, self.sel);
        let told_place = |end: fn(original::Selection) -> original::Position| {
            taken.map(|it| Some(place_back(end(it))))
        };
        let head = told_place(original::Selection::head);
        let answer = raw::selection_head(self.kind, self.sel);
        told::same(&head, told::placed, answer)?;
        let anchor = told_place(original::Selection::anchor);
        let answer = raw::selection_anchor(self.kind, self.sel);
        told::same(&anchor, told::placed, answer)?;
        let answer = raw::selection_extend_to(self.kind, self.sel, self.other.anchor);
        told::same(&self.extended(), told::sel_placed, answer)?;
        let bounds = taken.map(|it| it.row_bounds());
        let bounds = bounds.map(|(top, bottom)| (top as u32, bottom as u32));
        let answer = raw::selection_row_bounds(self.kind, self.sel);
        told::same(&bounds, told::bounded, answer)
    }
}

impl fmt::Display for Ends {
    fn fmt(&self, f: &mut fmt::Formatter<'_>) -> fmt::Result {
        let Self { kind, sel, other } = self;
        write!(
            f,
            "kind {kind} from {}, {}",
            ShownSel(*sel),
            ShownSel(*other)
        )
    }
}

impl Input for Ends {
    fn size(&self) -> usize {
        weight(&numbers(self.sel)) + weight(&numbers(self.other))
    }
}

fn compare(tally: &mut Tally, ends: &Ends) {
    tally.note(ends, ends.compare_sels());
    tally.note(ends, ends.compare_kind());
}

/// All pairs of selections between a few positions, of each kind and none.
pub fn small(work: &mut Work) {
    let places = [at(0, 0), at(0, 1), at(1, 0), at(2, 2)];
    let heads = |anchor: Position| places.map(|head| Sel { anchor, head });
    let sels: Vec<Sel> = places.into_iter().flat_map(heads).collect();
    for sel in &sels {
        for other in &sels {
            for kind in 0..4 {
                let (sel, other) = (*sel, *other);
                compare(&mut work.tally, &Ends { kind, sel, other });
            }
        }
    }
}

fn any_sel(random: &mut Random) -> Sel {
    let breadth = random.pick(&[2, 4, 1000]);
    let mut number = || any_number(random, breadth);
    Sel {
        anchor: at(number(), number()),
        head: at(number(), number()),
    }
}

pub fn random(work: &mut Work) {
    while work.tally.cases() < work.cases {
        let random = &mut work.random;
        let kind = match random.below(50) {
            0 => random.value(),
            _ => random.below(3) as u32,
        };
        let (sel, other) = (any_sel(random), any_sel(random));
        compare(&mut work.tally, &Ends { kind, sel, other });
    }
}
