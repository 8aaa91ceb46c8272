//! `box_fit` beside document 02's words.

use std::fmt;

use winchbarn::raw;

use crate::calls::{Shown, weight};
use crate::cases::EDGES;
use crate::guard::Guarded;
use crate::law::{self, LF, NUMBER_LIMIT, TEXT_LIMIT};
use crate::places;
use crate::random::Random;
use crate::small;
use crate::tally::{Input, Tally, Verdict};
use crate::told;
use crate::widths::RANGES;
use crate::work::{Extent, Work};

/// A buffer, how much of it is used, a box's cells and a tab width.
pub struct Boxed {
    pub buffer: Vec<u32>,
    pub used: usize,
    pub cells: u32,
    pub tab: u32,
}

impl Boxed {
    pub fn compare(&self) -> Verdict {
        let buffer = Guarded::of(&self.buffer);
        let answer = raw::box_fit(buffer.lent(), self.used, self.cells, self.tab);
        buffer.expect_kept("text")?;
        let expected = law::boxed(&self.buffer, self.used, self.cells, self.tab);
        told::same(&expected, told::placed, answer)
    }
}

impl fmt::Display for Boxed {
    fn fmt(&self, f: &mut fmt::Formatter<'_>) -> fmt::Result {
        let Self {
            buffer,
            used,
            cells,
            tab,
        } = self;
        write!(f, "buffer {}, used {used}", Shown(buffer))?;
        write!(f, ", {cells} cells, tab width {tab}")
    }
}

impl Input for Boxed {
    fn size(&self) -> usize {
        2 * self.buffer.len() + weight(&[self.cells, self.tab])
    }
}

/// One of each sort, the last of which no text may have.
const SORTS: [u32; 8] = [
    LF,
    law::TAB,
    'a' as u32,
    'あ' as u32,
    'Ａ' as u32,
    'ｱ' as u32,
    '\u{301}' as u32,
    0x0d,
];

/// The buffer used so far, in every one of these boxes and with each of these tab widths.
fn compare_all(tally: &mut Tally, buffer: &[u32], used: usize, boxes: &[u32], tabs: &[u32]) {
    let mut boxed = Boxed {
        buffer: buffer.to_vec(),
        used,
        cells: 0,
        tab: 0,
    };
    for cells in boxes {
        for tab in tabs {
            (boxed.cells, boxed.tab) = (*cells, *tab);
            tally.note(&boxed, boxed.compare());
        }
    }
}

/// Short texts used up to each place and past their end, with numbers around their limit.
fn at_limits(tally: &mut Tally, longest: usize) {
    let numbers = [&[0, 1, 2], &EDGES[..]].concat();
    for text in small::lists(&SORTS, longest) {
        for used in 0..=text.len() + 1 {
            compare_all(tally, &text, used, &numbers, &numbers);
        }
    }
}

/// One row of kana about as long as a text may be, in boxes that it leaves at its front and its end, and that it fits.
fn longest_rows(tally: &mut Tally) {
    let whole = 2 * TEXT_LIMIT as u32;
    let boxes = [
        2,
        whole - 3,
        whole - 1,
        whole,
        NUMBER_LIMIT,
        NUMBER_LIMIT + 1,
    ];
    for length in [TEXT_LIMIT, TEXT_LIMIT + 1] {
        let text = vec!['あ'.into(); length];
        for used in length - 1..=length + 1 {
            compare_all(tally, &text, used, &boxes, &[8, NUMBER_LIMIT + 1]);
        }
    }
}

/// All small texts in small boxes with small tab widths, and what lies at the limits.
pub fn small(work: &mut Work) {
    let (longest, longest_at_limits) = match work.extent {
        Extent::Tiny => (2, 1),
        Extent::Quick => (4, 2),
        Extent::Long => (5, 2),
    };
    for text in small::lists(&SORTS, longest) {
        let (boxes, tabs) = ([0, 1, 2, 3, 4, 5, 6, 7], [0, 1, 2, 3, 4]);
        compare_all(&mut work.tally, &text, text.len(), &boxes, &tabs);
    }
    at_limits(&mut work.tally, longest_at_limits);
    longest_rows(&mut work.tally);
}

/// The first and the last character of a range, and those beside them.
fn around(range: (u32, u32)) -> [u32; 4] {
    [range.0 - 1, range.0, range.1, range.1 + 1]
}

/// Every value up to and past the last scalar by itself, in boxes that tell no, one, two and more cells apart. A tiny run has some of
/// them, and those around each range of the table.
pub fn one_character(work: &mut Work) {
    let all = 0..=0x11_0010;
    let values: Vec<u32> = match work.extent {
        Extent::Tiny => {
            let ends = RANGES.into_iter().flat_map(around);
            all.step_by(997).chain(ends).collect()
        }
        _ => all.collect(),
    };
    for value in values {
        compare_all(&mut work.tally, &[value], 1, &[0, 1, 2], &[1]);
    }
}

const LETTERS: [char; 16] = [
    'a',
    ' ',
    '\t',
    '\t',
    'あ',
    '漢',
    'Ａ',
    'ｱ',
    'é',
    '¡',
    '\0',
    '\u{301}',
    '\u{fada}',
    '\u{feff}',
    '\u{2fffe}',
    '\u{10ffff}',
];

/// Rows of characters, every fourth of them from around a range of the table.
fn any_text(random: &mut Random, length: usize) -> Vec<u32> {
    let row = random.pick(&[2, 4, 9, 40, 1000]);
    let mut letter = || match random.below(4) {
        _ if random.one_in(row) => LF,
        0 => {
            let range = random.pick(&RANGES);
            random.pick(&around(range))
        }
        _ => random.pick(&LETTERS).into(),
    };
    (0..length).map(|_| letter()).collect()
}

/// One that is not too big.
fn any_small(random: &mut Random) -> u32 {
    random.below(NUMBER_LIMIT as usize + 1) as u32
}

fn any_tab(random: &mut Random) -> u32 {
    match random.below(20) {
        0 => any_small(random),
        1 => random.pick(&EDGES),
        _ => random.pick(&[0, 1, 2, 3, 4, 7, 8, 8, 16, 100]),
    }
}

/// About as many cells as the widest row takes, or fewer, or any.
fn any_cells(random: &mut Random, text: &[u32], tab: u32) -> u32 {
    let widest = law::widest(text, tab);
    let cells = match random.below(20) {
        0 => return any_small(random),
        1 => return random.pick(&EDGES),
        2..10 => random.between(0, widest),
        _ => (widest + random.below(3)).saturating_sub(1),
    };
    u32::try_from(cells).unwrap_or(u32::MAX)
}

fn any_box(random: &mut Random) -> Boxed {
    let length = places::any_length(random);
    let mut buffer = any_text(random, length);
    let used = places::any_used(random, length);
    let tab = any_tab(random);
    let cells = any_cells(random, &buffer[..used.min(length)], tab);
    places::spoil(random, &mut buffer);
    Boxed {
        buffer,
        used,
        cells,
        tab,
    }
}

pub fn random(work: &mut Work) {
    for _ in 0..work.cases {
        let boxed = any_box(&mut work.random);
        work.tally.note(&boxed, boxed.compare());
    }
}
