//! What a call of an edit is lent.

use std::fmt;

use winchbarn::raw::Edit;
use winchbarn::{Position, Sel, View};

use crate::tally::Input;

/// An edit with its payload and its two lists.
#[derive(Clone, Debug, Default, PartialEq, Eq)]
pub struct Whole {
    pub edit: Edit,
    pub payload: Vec<u32>,
    pub first: Vec<u32>,
    pub second: Vec<u32>,
}

/// How long the slices for the inverse are.
#[derive(Clone, Copy, Debug, Default, PartialEq, Eq)]
pub struct Room {
    pub payload: usize,
    pub first: usize,
    pub second: usize,
}

#[derive(Clone, Debug, Default, PartialEq, Eq)]
pub struct Call {
    pub buffer: Vec<u32>,
    pub view: View,
    pub whole: Whole,
    pub room: Room,
}

impl Room {
    /// Just enough for this inverse.
    pub fn of(inverse: &Whole) -> Self {
        Self {
            payload: inverse.payload.len(),
            first: inverse.first.len(),
            second: inverse.second.len(),
        }
    }

    /// Whether each of the slices is long enough.
    pub fn holds(&self, needed: Self) -> bool {
        needed.payload <= self.payload && needed.first <= self.first && needed.second <= self.second
    }

    /// The record room that demand 3 speaks of.
    pub fn of_demand_3(buffer: &[u32]) -> Self {
        Self {
            payload: buffer.len(),
            first: winchbarn::LIST_LIMIT,
            second: winchbarn::LIST_LIMIT,
        }
    }
}

impl Call {
    /// A call on a buffer that the text fills, with the record room of demand 3.
    pub fn on(text: &[u32], whole: Whole) -> Self {
        Self {
            buffer: text.to_vec(),
            view: View {
                used: text.len(),
                ..View::default()
            },
            whole,
            room: Room::of_demand_3(text),
        }
    }

    /// The used part of the buffer, as far as there is one.
    pub fn text(&self) -> &[u32] {
        &self.buffer[..self.view.used.min(self.buffer.len())]
    }
}

pub fn at(row: u32, col: u32) -> Position {
    Position { row, col }
}

pub fn chars(text: &str) -> Vec<u32> {
    text.chars().map(u32::from).collect()
}

const KINDS: [&str; 11] = [
    "InsertChar",
    "InsertStr",
    "DeleteRange Char",
    "DeleteRange Line",
    "DeleteRange Block",
    "JoinLines",
    "JoinLines spaced",
    "SplitLines",
    "Replace",
    "InsertBlock",
    "DeleteBlockChunks",
];

/// Elements as a string where they are one, else in hexadecimal; the middle of very many is left out.
pub struct Shown<'a>(pub &'a [u32]);

impl fmt::Display for Shown<'_> {
    fn fmt(&self, f: &mut fmt::Formatter<'_>) -> fmt::Result {
        let Shown(elements) = *self;
        if elements.len() > 400 {
            let (front, back) = (&elements[..100], &elements[elements.len() - 100..]);
            let left_out = elements.len() - 200;
            return write!(f, "{} .. {left_out} .. {}", Shown(front), Shown(back));
        }
        let string: Option<String> = elements.iter().map(|c| char::from_u32(*c)).collect();
        match string {
            Some(string) => write!(f, "{string:?}"),
            None => write!(f, "{elements:x?}"),
        }
    }
}

pub struct ShownPlace(pub Position);

impl fmt::Display for ShownPlace {
    fn fmt(&self, f: &mut fmt::Formatter<'_>) -> fmt::Result {
        write!(f, "({},{})", self.0.row, self.0.col)
    }
}

pub struct ShownSel(pub Sel);

impl fmt::Display for ShownSel {
    fn fmt(&self, f: &mut fmt::Formatter<'_>) -> fmt::Result {
        let Sel { anchor, head } = self.0;
        write!(f, "{} to {}", ShownPlace(anchor), ShownPlace(head))
    }
}

impl fmt::Display for Whole {
    fn fmt(&self, f: &mut fmt::Formatter<'_>) -> fmt::Result {
        let Edit {
            kind,
            start,
            end,
            count,
        } = self.edit;
        let name = KINDS.get(kind as usize).unwrap_or(&"no kind");
        write!(f, "{name} [{kind}] {}", ShownPlace(start))?;
        write!(f, " {} count {count}", ShownPlace(end))?;
        write!(f, " payload {}", Shown(&self.payload))?;
        write!(f, " first {:?} second {:?}", self.first, self.second)
    }
}

impl fmt::Display for Call {
    fn fmt(&self, f: &mut fmt::Formatter<'_>) -> fmt::Result {
        let View {
            used,
            cursor,
            changes,
        } = self.view;
        let behind = &self.buffer[self.text().len()..];
        let Room {
            payload,
            first,
            second,
        } = self.room;
        writeln!(f, "text {} used {used}", Shown(self.text()))?;
        writeln!(f, "buffer of {}, behind {:x?}", self.buffer.len(), behind)?;
        writeln!(f, "cursor {} changes {changes}", ShownPlace(cursor))?;
        writeln!(f, "edit {}", self.whole)?;
        write!(f, "room {payload}, {first}, {second}")
    }
}

/// How much there is to read in so many numbers.
pub fn weight(numbers: &[u32]) -> usize {
    let bits = |number: &u32| (u32::BITS - number.leading_zeros()) as usize;
    numbers.iter().map(|number| 1 + bits(number)).sum()
}

impl Input for Whole {
    fn size(&self) -> usize {
        let Edit {
            start, end, count, ..
        } = self.edit;
        let numbers = [start.row, start.col, end.row, end.col, count];
        let lists = weight(&self.first) + weight(&self.second);
        weight(&numbers) + lists + 2 * self.payload.len()
    }
}

impl Input for Call {
    fn size(&self) -> usize {
        self.whole.size() + 3 * self.text().len() + self.buffer.len()
    }
}
