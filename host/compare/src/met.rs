//! What runs of edits have met, so that a group that follows letters over them cannot be empty.

use std::fmt;

use winchbarn::Position;
use winchbarn::raw::{
    DELETE_BLOCK, DELETE_BLOCK_CHUNKS, DELETE_LINE, INSERT_BLOCK, INSERT_STR, JOIN_LINES,
    JOIN_LINES_SPACED, REPLACE, SPLIT_LINES,
};

use crate::calls::Whole;
use crate::law::row_lengths;
use crate::letters::{Stage, places};
use crate::tally::Input;

/// So many runs meet everything.
const ENOUGH: u64 = 1_000;

/// What an edit between two stages may meet.
type Situation = fn(&Stage, &Whole, &Stage) -> bool;

const SITUATIONS: [(&str, Situation); 18] = [
    ("a letter goes down by an insertion", goes_down),
    ("a join adds a space", |a, w, b| spaces(a, w, b).1 > 0),
    ("a join lacks a space", |a, w, b| {
        let (joins, spaces) = spaces(a, w, b);
        spaces < joins
    }),
    ("a block insert pads a row", pads),
    ("a Block reaches past a row's end", reaches_past_row),
    ("a Block reaches past the last row", reaches_past_rows),
    ("a Line delete takes the last rows", takes_last_rows),
    ("a Line delete begins past the last row", begins_past_rows),
    ("a pad stands behind the last width", surplus_pad),
    ("a join names a row past the last", |a, w, _| {
        [JOIN_LINES, JOIN_LINES_SPACED].contains(&w.edit.kind) && past_rows(a, w, 0)
    }),
    ("a block insert has a chunk for an absent row", |a, w, _| {
        w.edit.kind == INSERT_BLOCK && past_rows(a, w, w.first.len().max(1) - 1)
    }),
    ("chunks are deleted of an absent row", |a, w, _| {
        w.edit.kind == DELETE_BLOCK_CHUNKS && past_rows(a, w, w.first.len().max(1) - 1)
    }),
    ("a deleted chunk reaches past its row's end", chunk_past_row),
    ("much is put in", |_, w, _| {
        [INSERT_STR, REPLACE].contains(&w.edit.kind) && w.payload.len() > 64
    }),
    ("many chunks are put in or deleted", |a, w, b| {
        [INSERT_BLOCK, DELETE_BLOCK_CHUNKS].contains(&w.edit.kind)
            && w.first.len() > 64
            && a.state != b.state
    }),
    ("a mark meets another", meet),
    ("a mark is left behind the text's end", |_, _, after| {
        behind_end(after).is_some()
    }),
    ("a mark behind the text's end moves", |before, _, after| {
        behind_end(before).is_some_and(|mark| after.marks.last() != Some(&mark))
    }),
];

fn goes_down(before: &Stage, whole: &Whole, after: &Stage) -> bool {
    let mut letters = before.letters.iter().zip(&after.letters);
    whole.edit.kind == INSERT_STR
        && letters.any(|(a, b)| a.at.map(|pos| pos.row) < b.at.map(|pos| pos.row))
}

/// How many rows a spaced join joined, and how many spaces it added.
fn spaces(before: &Stage, whole: &Whole, after: &Stage) -> (usize, usize) {
    if whole.edit.kind != JOIN_LINES_SPACED {
        return (0, 0);
    }
    let (before, after) = (before.state.text(), after.state.text());
    let joins = row_lengths(before).len() - row_lengths(after).len();
    (joins, after.len() + joins - before.len())
}

fn pads(before: &Stage, whole: &Whole, _: &Stage) -> bool {
    let start = whole.edit.start;
    let lengths = row_lengths(before.state.text());
    let rows = lengths.iter().skip(start.row as usize);
    let mut rows = rows.take(whole.first.len());
    whole.edit.kind == INSERT_BLOCK && rows.any(|length| *length < start.col as usize)
}

/// A row that a Block cuts ends within the Block.
fn reaches_past_row(before: &Stage, whole: &Whole, _: &Stage) -> bool {
    let (start, end) = (whole.edit.start, whole.edit.end);
    let (left, right) = (start.col.min(end.col), start.col.max(end.col));
    let (top, bottom) = (start.row.min(end.row), start.row.max(end.row));
    let lengths = row_lengths(before.state.text());
    let mut rows = (0..).zip(&lengths);
    whole.edit.kind == DELETE_BLOCK
        && rows.any(|(row, length)| {
            let ends_within = (left + 1..=right).contains(&(*length as u32));
            (top..=bottom).contains(&row) && ends_within
        })
}

fn reaches_past_rows(before: &Stage, whole: &Whole, after: &Stage) -> bool {
    let rows = row_lengths(before.state.text()).len();
    let bottom = whole.edit.start.row.max(whole.edit.end.row) as usize;
    whole.edit.kind == DELETE_BLOCK && bottom >= rows && before.state != after.state
}

fn takes_last_rows(before: &Stage, whole: &Whole, _: &Stage) -> bool {
    let (start, end) = (whole.edit.start, whole.edit.end);
    let rows = row_lengths(before.state.text()).len();
    whole.edit.kind == DELETE_LINE && start.row > 0 && end.row as usize + 1 == rows
}

fn begins_past_rows(before: &Stage, whole: &Whole, _: &Stage) -> bool {
    let rows = row_lengths(before.state.text()).len();
    whole.edit.kind == DELETE_LINE && rows > 1 && whole.edit.start.row as usize >= rows
}

/// The row that the edit names, or one so many below it, is past the last.
fn past_rows(before: &Stage, whole: &Whole, below: usize) -> bool {
    let rows = row_lengths(before.state.text()).len();
    whole.edit.start.row as usize + below >= rows
}

/// A row ends within the chunk that goes.
fn chunk_past_row(before: &Stage, whole: &Whole, _: &Stage) -> bool {
    let start = whole.edit.start;
    let lengths = row_lengths(before.state.text());
    let rows = lengths.iter().skip(start.row as usize);
    let mut cuts = rows.zip(&whole.first);
    whole.edit.kind == DELETE_BLOCK_CHUNKS
        && cuts.any(|(length, width)| {
            let ends_within = start.col + 1..start.col + width;
            ends_within.contains(&(*length as u32))
        })
}

fn surplus_pad(_: &Stage, whole: &Whole, _: &Stage) -> bool {
    let mut surplus = whole.second.iter().skip(whole.first.len());
    whole.edit.kind == DELETE_BLOCK_CHUNKS && surplus.any(|pad| *pad > 0)
}

fn meet(before: &Stage, _: &Whole, after: &Stage) -> bool {
    let apart = |marks: &[Position]| marks.windows(2).filter(|it| it[0] != it[1]).count();
    before.marks.len() == after.marks.len() && apart(&after.marks) < apart(&before.marks)
}

/// The last mark, where it stands behind the text's end.
fn behind_end(stage: &Stage) -> Option<Position> {
    let end = places(stage.state.text()).last().copied();
    stage.marks.last().copied().filter(|mark| Some(*mark) > end)
}

/// How often each kind was made, and each situation met.
#[derive(Default)]
pub struct Met {
    kinds: [u64; 11],
    situations: [u64; SITUATIONS.len()],
}

impl Met {
    pub fn note(&mut self, before: &Stage, whole: &Whole, after: &Stage) {
        self.kinds[whole.edit.kind as usize] += 1;
        for ((_, meets), count) in SITUATIONS.iter().zip(&mut self.situations) {
            *count += u64::from(meets(before, whole, after));
        }
    }

    /// Runs that are enough have met every situation, and every kind but SplitLines.
    pub fn expect_all(&self, runs: u64) -> Result<(), String> {
        let kinds = (0..).zip(self.kinds);
        let mut kinds = kinds.filter(|(kind, _)| *kind != SPLIT_LINES);
        let all = kinds.all(|it| it.1 > 0) && self.situations.iter().all(|count| *count > 0);
        match all || runs < ENOUGH {
            true => Ok(()),
            false => Err("something was never met".into()),
        }
    }
}

impl fmt::Display for Met {
    fn fmt(&self, f: &mut fmt::Formatter<'_>) -> fmt::Result {
        write!(f, "edits by kind {:?}", self.kinds)?;
        for ((name, _), count) in SITUATIONS.iter().zip(self.situations) {
            write!(f, "\n{name}: {count}")?;
        }
        Ok(())
    }
}

impl Input for Met {
    /// Any run that failed is shown rather than this.
    fn size(&self) -> usize {
        usize::MAX
    }
}

#[cfg(test)]
mod tests {
    use super::*;

    #[test]
    fn enough_runs_that_meet_nothing_are_a_failure() {
        let mut met = Met::default();
        assert!(met.expect_all(ENOUGH).is_err());
        assert!(met.expect_all(ENOUGH - 1).is_ok());
        met.kinds = [1; 11];
        met.situations = [1; SITUATIONS.len()];
        met.kinds[SPLIT_LINES as usize] = 0;
        assert!(met.expect_all(ENOUGH).is_ok());
        met.situations[0] = 0;
        assert!(met.expect_all(ENOUGH).is_err());
        (met.situations[0], met.kinds[0]) = (1, 0);
        assert!(met.expect_all(ENOUGH).is_err());
    }
}
