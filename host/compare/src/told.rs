//! What a caller is told of an answer: the core's records, in every field.

use std::fmt::Debug;

use winchbarn::raw::{Applied, Count, Frame, Place, Rows, Said, SelPlace, Span, Viewed};
use winchbarn::{Position, Refusal, Sel, View};

use crate::bridge::Done;
use crate::calls::Whole;
use crate::law::Answer;
use crate::tally::Verdict;

/// The number of the refusal; 0 where there is none.
fn number<T>(answer: &Answer<T>) -> u32 {
    answer.as_ref().map_or_else(|it| it.number(), |_| 0)
}

fn offset<T>(answer: &Answer<T>) -> usize {
    answer.as_ref().map_or_else(|it| it.offset(), |_| 0)
}

pub fn counted(answer: &Answer<usize>) -> Count {
    Count {
        refusal: number(answer),
        offset: offset(answer),
        count: answer.unwrap_or_default(),
    }
}

pub fn said(answer: &Answer<bool>) -> Said {
    Said {
        refusal: number(answer),
        yes: answer.unwrap_or_default(),
    }
}

pub fn placed(answer: &Answer<Option<Position>>) -> Place {
    let place = answer.unwrap_or_default();
    Place {
        refusal: number(answer),
        found: place.is_some(),
        at: place.unwrap_or_default(),
    }
}

pub fn sel_placed(answer: &Answer<Option<Sel>>) -> SelPlace {
    let sel = answer.unwrap_or_default();
    SelPlace {
        refusal: number(answer),
        found: sel.is_some(),
        sel: sel.unwrap_or_default(),
    }
}

pub fn spanned(answer: &Answer<winchbarn::Span>) -> Span {
    let (covered, open, lo, hi) = match answer.unwrap_or_default() {
        winchbarn::Span::Outside => (false, false, 0, 0),
        winchbarn::Span::Closed { lo, hi } => (true, false, lo, hi),
        winchbarn::Span::Open { lo } => (true, true, lo, 0),
    };
    Span {
        refusal: number(answer),
        covered,
        open,
        lo,
        hi,
    }
}

pub fn bounded(answer: &Answer<(u32, u32)>) -> Rows {
    let (top, bottom) = answer.unwrap_or_default();
    Rows {
        refusal: number(answer),
        top,
        bottom,
    }
}

pub fn framed(answer: &Answer<Whole>) -> Frame {
    let whole = answer.as_ref().cloned().unwrap_or_default();
    Frame {
        refusal: number(answer),
        offset: offset(answer),
        edit: whole.edit,
        payload: whole.payload.len(),
        first: whole.first.len(),
        second: whole.second.len(),
    }
}

/// A refusal has the view as it was given.
pub fn viewed(view: View, answer: &Answer<View>) -> Viewed {
    Viewed {
        refusal: number(answer),
        view: answer.unwrap_or(view),
    }
}

/// A refusal has the view as it was given.
pub fn applied(view: View, answer: &Answer<&Done>) -> Applied {
    let Ok(done) = answer else {
        return Applied {
            refusal: number(answer),
            offset: offset(answer),
            view,
            ..Applied::default()
        };
    };
    Applied {
        refusal: 0,
        offset: 0,
        view: View {
            used: done.text.len(),
            cursor: done.cursor,
            changes: view.changes.wrapping_add(done.changes),
        },
        inverse: done.inverse.edit,
        payload: done.inverse.payload.len(),
        first: done.inverse.first.len(),
        second: done.inverse.second.len(),
    }
}

/// Whether the core answered what a caller is to be told of what is expected.
pub fn same<T, R: PartialEq + Debug>(
    expected: &Answer<T>,
    told: impl Fn(&Answer<T>) -> R,
    answer: R,
) -> Verdict {
    let wanted = told(expected);
    if wanted != answer {
        return Err(format!("expected {wanted:?}\nanswered {answer:?}"));
    }
    Ok(number(expected))
}

/// The expected output's length, or its refusal.
pub fn length<T>(output: &Answer<Vec<T>>) -> Answer<usize> {
    output.as_ref().map(Vec::len).map_err(|it: &Refusal| *it)
}
