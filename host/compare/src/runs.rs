//! Demand 3: runs of edits, taken back and made again through the core alone.

use std::fmt;

use winchbarn::View;

use crate::calls::{Call, Room, Shown, Whole};
use crate::cases;
use crate::edits;
use crate::law::row_lengths;
use crate::lend::{Given, Written};
use crate::random::Random;
use crate::tally::{Input, Verdict};
use crate::work::Work;

/// An opening text in its buffer, and edits that are made one after another.
pub struct Run {
    pub buffer: Vec<u32>,
    pub used: usize,
    pub edits: Vec<Whole>,
}

/// A text in its buffer.
#[derive(Clone, PartialEq, Eq)]
pub struct State {
    buffer: Vec<u32>,
    used: usize,
}

impl State {
    pub fn text(&self) -> &[u32] {
        &self.buffer[..self.used]
    }

    pub fn call(&self, whole: &Whole) -> Call {
        Call {
            buffer: self.buffer.clone(),
            view: View {
                used: self.used,
                ..View::default()
            },
            whole: whole.clone(),
            room: Room::of_demand_3(&self.buffer),
        }
    }

    /// The state after the edit, and its inverse; none where the edit is refused.
    pub fn step(&self, whole: &Whole) -> Result<Option<(State, Whole)>, String> {
        let call = self.call(whole);
        let given = Given::of(whole);
        let mut written = Written::of(&call.buffer, call.room);
        let applied = edits::apply(&call, &given, &mut written);
        given.expect_kept()?;
        if applied.refusal != 0 {
            written.expect_kept()?;
            return Ok(None);
        }
        let state = State {
            buffer: written.text.lent().to_vec(),
            used: applied.view.used,
        };
        let inverse = Whole {
            edit: applied.inverse,
            payload: written.payload.lent()[..applied.payload].to_vec(),
            first: written.first.lent()[..applied.first].to_vec(),
            second: written.second.lent()[..applied.second].to_vec(),
        };
        Ok(Some((state, inverse)))
    }
}

/// A run that was made: the text at each stage, first and last included, and the inverses of the edits between them.
struct Made {
    stages: Vec<Vec<u32>>,
    inverses: Vec<Whole>,
    last: State,
}

impl Made {
    fn from(opening: State) -> Self {
        Self {
            stages: vec![opening.text().to_vec()],
            inverses: Vec::new(),
            last: opening,
        }
    }

    fn add(&mut self, (next, inverse): (State, Whole)) {
        self.stages.push(next.text().to_vec());
        self.inverses.push(inverse);
        self.last = next;
    }

    /// The run of the inverses, last first: each is accepted and gives back the text at its stage.
    fn taken_back(&self, what: &str) -> Result<Made, String> {
        let mut back = Made::from(self.last.clone());
        let earlier = self.stages.iter().rev().skip(1);
        for (whole, text) in self.inverses.iter().rev().zip(earlier) {
            let step = back.last.step(whole)?;
            let step = step.ok_or_else(|| format!("{what} {whole} is refused"))?;
            if step.0.text() != text {
                let found = Shown(step.0.text());
                return Err(format!("{what} {whole} gives {found}, not {}", Shown(text)));
            }
            back.add(step);
        }
        Ok(back)
    }
}

impl Run {
    pub fn opening(&self) -> State {
        State {
            buffer: self.buffer.clone(),
            used: self.used,
        }
    }

    /// Edits that are refused or not undoable are left out.
    fn make(&self) -> Result<Made, String> {
        let mut made = Made::from(self.opening());
        for whole in &self.edits {
            if edits::undoable(&made.last.call(whole))?.yes
                && let Some(step) = made.last.step(whole)?
            {
                made.add(step);
            }
        }
        Ok(made)
    }

    pub fn compare(&self) -> Verdict {
        self.make()?.taken_back("undo")?.taken_back("redo")?;
        Ok(0)
    }
}

impl fmt::Display for Run {
    fn fmt(&self, f: &mut fmt::Formatter<'_>) -> fmt::Result {
        let text = Shown(&self.buffer[..self.used]);
        write!(f, "text {text} in a buffer of {}", self.buffer.len())?;
        for whole in &self.edits {
            write!(f, "\n{whole}")?;
        }
        Ok(())
    }
}

impl Input for Run {
    fn size(&self) -> usize {
        self.edits.iter().map(Input::size).sum::<usize>() + 3 * self.used + self.buffer.len()
    }
}

/// Runs of edits of every kind, in buffers that are sometimes tight.
pub fn random(work: &mut Work) {
    for _ in 0..work.cases {
        let run = any_run(&mut work.random);
        work.tally.note(&run, run.compare());
    }
}

fn any_run(random: &mut Random) -> Run {
    let text = match random.below(200) {
        0 => cases::text(random, 12_000),
        _ => cases::short_text(random),
    };
    let lengths = row_lengths(&text);
    let count = random.between(1, 14);
    let edits = (0..count).map(|_| {
        let kind = cases::kind(random);
        cases::whole(random, kind, &lengths)
    });
    let edits = edits.collect();
    let used = text.len();
    let mut buffer = text;
    let spare = random.pick(&[0, 4, 40, 2000]);
    buffer.resize(used + spare, 0xbe);
    Run {
        buffer,
        used,
        edits,
    }
}
