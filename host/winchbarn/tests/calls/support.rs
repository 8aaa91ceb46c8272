//! A text in a lent buffer, and edits of it with their payload as a string.

use winchbarn::{Applied, Edit, Kind, LIST_LIMIT, Position, Refusal, View, apply_edit, undoable};

pub fn scalars(text: &str) -> Vec<u32> {
    text.chars().map(u32::from).collect()
}

pub fn at(row: u32, col: u32) -> Position {
    Position { row, col }
}

pub fn edit(kind: Kind, start: Position, end: Position) -> Edit {
    Edit {
        start,
        end,
        ..Edit::new(kind)
    }
}

/// An edit with its payload and lists.
#[derive(Clone, Debug, PartialEq, Eq)]
pub struct Whole {
    pub edit: Edit,
    pub payload: Vec<u32>,
    pub first: Vec<u32>,
    pub second: Vec<u32>,
}

impl Whole {
    pub fn new(edit: Edit, payload: &str, first: &[u32], second: &[u32]) -> Self {
        Whole {
            edit,
            payload: scalars(payload),
            first: first.to_vec(),
            second: second.to_vec(),
        }
    }
}

pub struct Buffer {
    pub text: Vec<u32>,
    pub view: View,
}

impl Buffer {
    pub fn holding(text: &str) -> Self {
        let mut buffer = scalars(text);
        let used = buffer.len();
        buffer.resize(64, 0);
        Buffer {
            text: buffer,
            view: View {
                used,
                ..View::default()
            },
        }
    }

    pub fn text(&self) -> String {
        self.text[..self.view.used]
            .iter()
            .map(|&value| char::from_u32(value).expect("a text holds scalars"))
            .collect()
    }

    /// Applies an edit with the record room of demand 3 and answers its inverse.
    pub fn apply(&mut self, whole: &Whole) -> Result<Whole, Refusal> {
        let mut payload = vec![0; self.text.len()];
        let (mut first, mut second) = ([0; LIST_LIMIT], [0; LIST_LIMIT]);
        let done: Applied = apply_edit(
            &mut self.text,
            self.view,
            whole.edit,
            &whole.payload,
            &whole.first,
            &whole.second,
            &mut payload,
            &mut first,
            &mut second,
        )?;
        self.view = done.view;
        Ok(Whole {
            edit: done.inverse,
            payload: payload[..done.payload].to_vec(),
            first: first[..done.first].to_vec(),
            second: second[..done.second].to_vec(),
        })
    }

    pub fn undoable(&self, whole: &Whole) -> Result<bool, Refusal> {
        undoable(
            &self.text,
            self.view,
            whole.edit,
            &whole.payload,
            &whole.first,
            &whole.second,
        )
    }
}
