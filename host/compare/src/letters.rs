//! Request 6 of document 02: over runs of allowed edits, letters and marks carried by `shift_position` alone, each time on the
//! text before the edit.

use std::ops::Range;

use winchbarn::Position;
use winchbarn::raw::{
    DELETE_BLOCK, DELETE_BLOCK_CHUNKS, DELETE_CHAR, DELETE_LINE, Edit, INSERT_BLOCK, INSERT_CHAR,
    INSERT_STR, JOIN_LINES, JOIN_LINES_SPACED, Place, REPLACE,
};

use crate::calls::{Shown, ShownPlace, Whole, at};
use crate::cases;
use crate::law::{LF, NUMBER_LIMIT, row_lengths};
use crate::met::Met;
use crate::random::Random;
use crate::runs::{Run, State};
use crate::shifts::Shift;
use crate::tally::Verdict;
use crate::work::Work;

/// A letter that is known by its value, and where it was carried to; nowhere once an edit removed it.
pub struct Letter {
    pub value: u32,
    pub at: Option<Position>,
}

/// A run between two edits, with the letters and, in their order, the marks that are followed.
pub struct Stage {
    pub state: State,
    pub letters: Vec<Letter>,
    pub marks: Vec<Position>,
}

/// How many letters, and how many marks, of a text are followed at most.
const FOLLOWED: usize = 256;

/// An opening text's letters go up from this one; no payload, pad or join space is one of them.
const FIRST_LETTER: u32 = 0x2_0000;

/// Whether the theorem of request 6 speaks of this edit. A Line delete names rows only, which may lie past the last, a Block's ends may be in any order,
/// and pads behind the last width do not count.
pub fn allowed(text: &[u32], whole: &Whole) -> bool {
    let lengths = row_lengths(text);
    let Edit {
        kind, start, end, ..
    } = whole.edit;
    match kind {
        INSERT_CHAR | INSERT_STR => in_text(&lengths, start),
        DELETE_CHAR | REPLACE => in_text(&lengths, start) && in_text(&lengths, end) && start <= end,
        DELETE_LINE => start.row <= end.row,
        DELETE_BLOCK | JOIN_LINES | JOIN_LINES_SPACED | INSERT_BLOCK => true,
        DELETE_BLOCK_CHUNKS => whole.first.iter().zip(&whole.second).all(|it| *it.1 == 0),
        _ => false,
    }
}

fn in_text(lengths: &[usize], pos: Position) -> bool {
    let length = lengths.get(pos.row as usize);
    length.is_some_and(|length| pos.col as usize <= *length)
}

/// Whether the character at this place, in a text whose last row is this one, is one that the edit, its ends taken as they are, removes.
fn removes(whole: &Whole, last: u32, pos: Position) -> bool {
    let Edit {
        kind, start, end, ..
    } = whole.edit;
    let between = |a: u32, b: u32, n: u32| a.min(b) <= n && n <= a.max(b);
    match kind {
        DELETE_CHAR | REPLACE => start <= pos && pos < end,
        DELETE_LINE => between(start.row.min(last), end.row, pos.row),
        DELETE_BLOCK => {
            between(start.row, end.row, pos.row) && between(start.col, end.col, pos.col)
        }
        DELETE_BLOCK_CHUNKS => cut_of(whole, pos.row).is_some_and(|cut| cut.contains(&pos.col)),
        _ => false,
    }
}

/// The columns that a DeleteBlockChunks cuts out of this row.
fn cut_of(whole: &Whole, row: u32) -> Option<Range<u32>> {
    let start = whole.edit.start;
    let item = row.checked_sub(start.row)? as usize;
    let width = whole.first.get(item)?;
    let pad = whole.second.get(item).copied().unwrap_or(0);
    Some(start.col.saturating_sub(pad)..start.col + width)
}

/// Each place in the text: of its characters, and its end.
pub fn places(text: &[u32]) -> Vec<Position> {
    let next = |pos: &mut Position, c: &u32| {
        *pos = match *c {
            LF => at(pos.row + 1, 0),
            _ => at(pos.row, pos.col + 1),
        };
        Some(*pos)
    };
    let first = at(0, 0);
    let others = text.iter().scan(first, next);
    std::iter::once(first).chain(others).collect()
}

/// The characters other than LF, each with its place.
fn standing(text: &[u32]) -> Vec<(u32, Position)> {
    let characters = text.iter().copied().zip(places(text));
    characters.filter(|(c, _)| *c != LF).collect()
}

/// The places of a value among characters that are sorted.
fn places_of(sorted: &[(u32, Position)], value: u32) -> Vec<Position> {
    let from = sorted.partition_point(|it| it.0 < value);
    let alike = sorted[from..].iter().take_while(|it| it.0 == value);
    alike.map(|it| it.1).collect()
}

/// All of them, or one of every so many; the last is among them.
fn sample<T: Copy>(all: &[T]) -> Vec<T> {
    let step = all.len().div_ceil(FOLLOWED).max(1);
    let mut some: Vec<T> = all.iter().rev().step_by(step).copied().collect();
    some.reverse();
    some
}

fn shown(places: &[Position]) -> String {
    let places: Vec<String> = places
        .iter()
        .map(|pos| ShownPlace(*pos).to_string())
        .collect();
    match places.is_empty() {
        true => "nowhere".into(),
        false => places.join(" "),
    }
}

fn carried(pos: Position, answer: Place) -> Result<Position, String> {
    match answer.refusal == 0 && answer.found {
        true => Ok(answer.at),
        false => Err(format!("{} is answered {answer:?}", ShownPlace(pos))),
    }
}

/// Where a letter goes that stood here, in a text with this last row; nowhere where the edit removes it.
fn letter_over(
    whole: &Whole,
    last: u32,
    shift: &Shift,
    pos: Position,
) -> Result<Option<Position>, String> {
    match removes(whole, last, pos) {
        true => Ok(None),
        false => carried(pos, shift.answer(pos)).map(Some),
    }
}

/// Where a mark goes; nowhere where it lies past what a shift is given.
fn mark_over(shift: &Shift, mark: Position) -> Result<Option<Position>, String> {
    let answer = shift.answer(mark);
    let too_far = mark.row > NUMBER_LIMIT || mark.col > NUMBER_LIMIT;
    match too_far && answer.refusal == 2 {
        true => Ok(None),
        false => carried(mark, answer).map(Some),
    }
}

impl Stage {
    pub fn opening(state: State) -> Self {
        let letter = |(value, pos)| Letter {
            value,
            at: Some(pos),
        };
        let letters = sample(&standing(state.text()));
        Self {
            letters: letters.into_iter().map(letter).collect(),
            marks: sample(&places(state.text())),
            state,
        }
    }

    /// The next stage, whether the edit is allowed or not.
    fn over(&self, whole: &Whole) -> Result<Stage, String> {
        let (state, _) = self.state.step(whole)?.ok_or("refused")?;
        let call = self.state.call(whole);
        let shift = Shift::over(&call);
        let letters = self.letters_over(whole, &shift, state.text())?;
        let marks = self.marks_over(&shift, state.text())?;
        shift.expect_kept()?;
        Ok(Stage {
            state,
            letters,
            marks,
        })
    }

    /// Each letter stands where it was carried to and nowhere else.
    fn letters_over(
        &self,
        whole: &Whole,
        shift: &Shift,
        after: &[u32],
    ) -> Result<Vec<Letter>, String> {
        let mut sorted = standing(after);
        sorted.sort_unstable();
        let last = row_lengths(self.state.text()).len() as u32 - 1;
        let over = |letter: &Letter| {
            let value = letter.value;
            let at = letter.at.map(|pos| letter_over(whole, last, shift, pos));
            let at = at.transpose()?.flatten();
            let found = places_of(&sorted, value);
            if found != at.as_slice() {
                let from = shown(letter.at.as_slice());
                let (to, found) = (shown(at.as_slice()), shown(&found));
                let letter = Shown(&[value]);
                return Err(format!("{letter} from {from} to {to}, found {found}"));
            }
            Ok(Letter { value, at })
        };
        self.letters.iter().map(over).collect()
    }

    /// Each mark comes to the text or not before its end, and passes none of the others.
    fn marks_over(&self, shift: &Shift, after: &[u32]) -> Result<Vec<Position>, String> {
        let lengths = row_lengths(after);
        let end = *places(after).last().expect("an end");
        let mut marks = Vec::new();
        for mark in &self.marks {
            let Some(pos) = mark_over(shift, *mark)? else {
                continue;
            };
            let passes = marks.last().is_some_and(|earlier| *earlier > pos);
            if passes || pos < end && !in_text(&lengths, pos) {
                let (from, to) = (ShownPlace(*mark), ShownPlace(pos));
                let earlier = shown(&marks);
                return Err(format!("mark {from} to {to}, those before it to {earlier}"));
            }
            marks.push(pos);
        }
        Ok(marks)
    }
}

/// Follows a run. Its edits were accepted when it was made and should all be allowed, so that another one is an error.
fn compare(run: &Run, met: &mut Met) -> Verdict {
    let mut stage = Stage::opening(run.opening());
    for whole in &run.edits {
        if !allowed(stage.state.text(), whole) {
            return Err(format!("{whole}\nis not allowed"));
        }
        let next = stage.over(whole);
        let next = next.map_err(|why| format!("{whole}\n{why}"))?;
        met.note(&stage, whole, &next);
        stage = next;
    }
    Ok(0)
}

/// Runs of edits of every kind that is allowed, most of them on short texts.
pub fn random(work: &mut Work) {
    let mut met = Met::default();
    for _ in 0..work.cases {
        let run = any_run(&mut work.random);
        work.tally.note(&run, compare(&run, &mut met));
    }
    if let Err(why) = met.expect_all(work.cases) {
        work.tally.note(&met, Err(why));
    }
}

/// Each edit is made for the text as it then is; those that the core refuses are left out.
fn any_run(random: &mut Random) -> Run {
    let mut buffer = any_opening(random);
    let used = buffer.len();
    let spare = random.pick(&[0, 4, 40, 2000]);
    buffer.resize(used + spare, 0xbe);
    let mut run = Run {
        buffer,
        used,
        edits: Vec::new(),
    };
    let mut state = run.opening();
    for _ in 0..random.between(1, 14) {
        let whole = any_edit(random, state.text());
        let step = state.step(&whole);
        if step == Ok(None) {
            continue;
        }
        run.edits.push(whole);
        let Ok(Some((next, _))) = step else {
            break;
        };
        state = next;
    }
    run
}

/// A text in which no letter stands twice.
fn any_opening(random: &mut Random) -> Vec<u32> {
    let mut text = match random.below(400) {
        0 => cases::text(random, 12_000),
        _ => cases::short_text(random),
    };
    for (letter, c) in (FIRST_LETTER..).zip(&mut text) {
        if *c != LF {
            *c = letter;
        }
    }
    text
}

const KINDS: [u32; 10] = [
    INSERT_CHAR,
    INSERT_STR,
    DELETE_CHAR,
    DELETE_LINE,
    DELETE_BLOCK,
    JOIN_LINES,
    JOIN_LINES_SPACED,
    REPLACE,
    INSERT_BLOCK,
    DELETE_BLOCK_CHUNKS,
];

/// An edit that is allowed; what is cut is mostly short, so that letters are left to follow.
fn any_edit(random: &mut Random, text: &[u32]) -> Whole {
    let kind = random.pick(&KINDS);
    let mut whole = cases::whole(random, kind, &row_lengths(text));
    let places = places(text);
    let from = random.below(places.len());
    let length = random.pick(&[0, 1, 2, 5, text.len()]);
    let to = (from + length).min(text.len());
    if [INSERT_CHAR, INSERT_STR, DELETE_CHAR, DELETE_LINE, REPLACE].contains(&kind) {
        whole.edit.start = places[from];
        whole.edit.end = places[to];
    }
    if kind == DELETE_LINE && random.one_in(4) {
        whole.edit.start.row += random.pick(&[0, 0, 1, 9]);
        whole.edit.end.row = whole.edit.start.row + random.pick(&[0, 1, 9]);
    }
    if kind == DELETE_BLOCK_CHUNKS {
        let widths = whole.first.len();
        let counted = whole.second.iter_mut().take(widths);
        counted.for_each(|pad| *pad = 0);
    }
    if random.one_in(20) {
        lengthen(random, &mut whole);
    }
    if random.one_in(2) {
        cases::litter(random, &mut whole);
    }
    whole
}

/// Puts in, or cuts, much or in many rows.
fn lengthen(random: &mut Random, whole: &mut Whole) {
    let much = random.between(65, 300);
    let items = random.pick(&[1, 100]);
    match whole.edit.kind {
        INSERT_STR | REPLACE => whole.payload = cases::text(random, much),
        INSERT_BLOCK => {
            whole.first = vec![(much / items) as u32; items];
            whole.payload = cases::letters(random, much / items * items);
        }
        DELETE_BLOCK_CHUNKS => {
            whole.first = vec![(much / items) as u32; items];
            whole.second.clear();
        }
        _ => (),
    }
}

#[cfg(test)]
mod tests {
    use super::*;
    use crate::calls::chars;
    use winchbarn::raw::SPLIT_LINES;

    fn whole(kind: u32, start: Position, end: Position) -> Whole {
        let edit = Edit {
            kind,
            start,
            end,
            count: 0,
        };
        Whole {
            edit,
            ..Whole::default()
        }
    }

    fn chunks(start: Position, first: &[u32], second: &[u32]) -> Whole {
        Whole {
            first: first.to_vec(),
            second: second.to_vec(),
            ..whole(DELETE_BLOCK_CHUNKS, start, at(0, 0))
        }
    }

    fn run(text: &str, edits: Vec<Whole>) -> Run {
        let buffer = chars(text);
        Run {
            used: buffer.len(),
            buffer,
            edits,
        }
    }

    fn fault(text: &str, whole: &Whole) -> Option<String> {
        let opening = run(text, Vec::new()).opening();
        Stage::opening(opening).over(whole).err()
    }

    #[test]
    fn edits_that_are_not_allowed_lose_letters() {
        let cases = [
            ("a", whole(SPLIT_LINES, at(0, 0), at(0, 0)), "found: false"),
            (
                "ab",
                chunks(at(0, 1), &[0], &[1]),
                "\"b\" from (0,1) to (0,1), found (0,0)",
            ),
            ("\na", whole(DELETE_CHAR, at(1, 0), at(0, 0)), "refusal: 6"),
            ("\na", whole(REPLACE, at(1, 0), at(0, 0)), "refusal: 6"),
            (
                "\n\na",
                whole(DELETE_LINE, at(1, 0), at(0, 0)),
                "refusal: 6",
            ),
            (
                "\na",
                whole(DELETE_CHAR, at(0, 99), at(1, 0)),
                "\"a\" from (1,0) to (0,99), found (0,0)",
            ),
        ];
        for (text, whole, why) in cases {
            let fault = fault(text, &whole).expect("a letter that is lost");
            assert!(fault.contains(why), "{text:?} {whole}\n{fault}");
            let verdict = compare(&run(text, vec![whole]), &mut Met::default());
            assert!(verdict.unwrap_err().ends_with("is not allowed"));
        }
    }

    /// None of these loses a letter: only the definition says which are allowed.
    #[test]
    fn allowed_is_as_the_definition_has_it() {
        let readings = [
            ("a", whole(DELETE_LINE, at(0, 9), at(0, 9)), true),
            ("a\nb", whole(DELETE_LINE, at(1, 0), at(9, 0)), true),
            ("a\nb", whole(DELETE_LINE, at(5, 0), at(9, 0)), true),
            ("ab", whole(DELETE_BLOCK, at(0, 1), at(0, 0)), true),
            ("a", whole(DELETE_BLOCK, at(7, 7), at(0, 9)), true),
            ("a", whole(JOIN_LINES, at(9, 0), at(0, 0)), true),
            ("ab", whole(INSERT_STR, at(0, 99), at(0, 0)), false),
            ("ab", whole(DELETE_CHAR, at(0, 0), at(0, 99)), false),
            ("a", whole(INSERT_BLOCK, at(9, 9), at(0, 0)), true),
            ("a", chunks(at(0, 1), &[], &[1]), true),
            ("a", chunks(at(0, 1), &[0], &[0, 1]), true),
            ("a", chunks(at(5, 0), &[0], &[1]), false),
        ];
        for (text, whole, expected) in readings {
            assert_eq!(allowed(&chars(text), &whole), expected, "{text:?} {whole}");
            assert_eq!(fault(text, &whole), None, "{text:?} {whole}");
        }
    }

    /// The mark of a row that is deleted stays behind the text's end, where chunks that no row takes move it.
    #[test]
    fn a_mark_is_followed_until_it_is_too_big() {
        let chunk = 16_384;
        let push = Whole {
            payload: vec![0x61; chunk],
            first: vec![chunk as u32],
            ..whole(INSERT_BLOCK, at(1, 0), at(0, 0))
        };
        let opening = run("\n", Vec::new()).opening();
        let mut stage = Stage::opening(opening);
        stage = stage.over(&whole(DELETE_LINE, at(1, 0), at(1, 0))).unwrap();
        assert_eq!(stage.marks, [at(0, 0), at(1, 0)]);
        for _ in 0..62 {
            stage = stage.over(&push).unwrap();
        }
        assert_eq!(stage.marks, [at(0, 0), at(1, 62 * chunk as u32)]);
        assert_eq!(stage.over(&push).unwrap().marks, [at(0, 0)]);
    }
}
