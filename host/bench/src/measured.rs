//! What is measured. Each comparison first sees that its sides give the same result.

use std::hint::black_box;

use winchbarn::*;

use crate::boxes::first_over;
use crate::cases::{self, CHARACTERS, Whole};
use crate::plain::{self, Plain, all_admissible};
use crate::sides::{original_edit, original_position, plain_edit, string};
use crate::timing::{Side, timed};
use crate::{report, script, table};

const BUFFER: usize = 16_384;
const CELLS: u32 = 144;
const TAB_WIDTH: u32 = 8;
const SELECTIONS: u32 = 1_024;
const SCRIPT_TEXT: usize = 4_000;
const SCRIPT_EDITS: usize = 10_000;

/// A core's text, with slices for the inverse.
#[derive(Clone)]
struct Core {
    text: Vec<u32>,
    view: View,
    payload: Vec<u32>,
    first: Vec<u32>,
    second: Vec<u32>,
}

impl Core {
    fn holding(opening: &[u32]) -> Self {
        let mut text = opening.to_vec();
        text.resize(BUFFER, 0);
        Core {
            text,
            view: View {
                used: opening.len(),
                ..View::default()
            },
            payload: vec![0; BUFFER],
            first: vec![0; LIST_LIMIT],
            second: vec![0; LIST_LIMIT],
        }
    }

    fn apply(&mut self, whole: &Whole) -> Applied {
        let applied = apply_edit(
            &mut self.text,
            self.view,
            whole.edit,
            &whole.payload,
            &whole.first,
            &whole.second,
            &mut self.payload,
            &mut self.first,
            &mut self.second,
        );
        applied.expect("the edit is accepted")
    }

    fn inverse(&self, applied: &Applied) -> Whole {
        Whole {
            edit: applied.inverse,
            payload: self.payload[..applied.payload].to_vec(),
            first: self.first[..applied.first].to_vec(),
            second: self.second[..applied.second].to_vec(),
        }
    }
}

fn plain_holding(opening: &[u32]) -> Plain {
    let mut text = Vec::with_capacity(BUFFER);
    text.extend_from_slice(opening);
    Plain {
        text,
        ..Plain::default()
    }
}

fn see_that_edits_agree(opening: &[u32], whole: &Whole) {
    let mut core = Core::holding(opening);
    let applied = core.apply(whole);
    let text = &core.text[..applied.view.used];
    let inverse = plain_edit(&core.inverse(&applied));

    let mut plain = plain_holding(opening);
    assert_eq!(plain.apply(&plain_edit(whole)), inverse);
    assert_eq!(
        (plain.text.as_slice(), plain.cursor),
        (text, applied.view.cursor)
    );

    let mut view = original::View::from_str(&string(opening));
    let original_inverse = view.apply_edit(original_edit(plain_edit(whole)));
    assert_eq!(original_inverse, original_edit(inverse));
    assert_eq!(view.as_string(), string(text));
    assert_eq!(view.cursor(), original_position(applied.view.cursor));
}

/// What every call begins with, the look at each character, alone and with a row found in the middle of the text.
pub fn clamping() {
    let opening = cases::mixed_text(CHARACTERS);
    let core = Core::holding(&opening);
    let middle = cases::edits(&opening)[0].1.edit.start;
    table("clamping", &["plain"]);
    for (name, pos) in [
        ("the scan, and the first row", Position::default()),
        ("the scan, and a row in the middle", middle),
    ] {
        let by_core = || clamp_position(black_box(&core.text), core.view.used, pos);
        let by_rust = || {
            let text = black_box(&core.text[..core.view.used]);
            all_admissible(text).then(|| plain::locate(text, pos).0)
        };
        assert_eq!((by_core(), by_rust()), (Ok(pos), Some(pos)));
        report(
            name,
            vec![Side::new(|| timed(by_core)), Side::new(|| timed(by_rust))],
        );
    }
}

/// Rows that all fit, so that the whole text is walked; the widest of kana takes just as many cells as the box has.
pub fn boxes() {
    table("box", &["plain", "plain after scan"]);
    box_compared("ASCII", &cases::tabbed_text(CHARACTERS, 0x21, 94));
    box_compared("kana", &cases::tabbed_text(CHARACTERS, 0x3041, 86));
    box_compared("mixed", &cases::mixed_text(CHARACTERS));
    box_compared("kana and emoji in turn", &cases::jumping_text(CHARACTERS));
}

fn box_compared(name: &str, opening: &[u32]) {
    let core = Core::holding(opening);
    let by_core = |cells| box_fit(black_box(&core.text), core.view.used, cells, TAB_WIDTH);
    let by_rust = |cells| first_over(black_box(opening), cells, TAB_WIDTH);
    assert_eq!(by_rust(CELLS), None);
    for cells in 0..=CELLS {
        assert_eq!(by_core(cells), Ok(by_rust(cells)));
    }
    let scanned = || all_admissible(black_box(opening)).then(|| by_rust(CELLS));
    report(
        name,
        vec![
            Side::new(|| timed(|| by_core(CELLS))),
            Side::new(|| timed(|| by_rust(CELLS))),
            Side::new(|| timed(scanned)),
        ],
    );
}

pub fn edits() {
    let opening = cases::mixed_text(CHARACTERS);
    table(
        "edit",
        &["original, stand-in rope", "plain", "plain after scan"],
    );
    for (name, whole) in cases::edits(&opening) {
        see_that_edits_agree(&opening, &whole);
        report(name, edit_sides(&opening, &whole));
    }
}

fn edit_sides<'a>(opening: &'a [u32], whole: &'a Whole) -> Vec<Side<'a>> {
    let mut core = Core::holding(opening);
    let text = string(opening);
    let edit = plain_edit(whole);
    let for_original = original_edit(edit.clone());
    vec![
        Side::new(move || {
            core.text[..opening.len()].copy_from_slice(opening);
            timed(|| core.apply(black_box(whole)))
        }),
        Side::new(move || {
            let mut view = original::View::from_str(&text);
            let edit = for_original.clone();
            timed(|| view.apply_edit(black_box(edit)))
        }),
        plain_side(opening, edit.clone(), |_| true),
        plain_side(opening, edit, |text| {
            all_admissible(text) & all_admissible(black_box(&whole.payload))
        }),
    ]
}

fn plain_side<'a>(
    opening: &'a [u32],
    edit: plain::Edit,
    judged: impl Fn(&[u32]) -> bool + 'a,
) -> Side<'a> {
    let mut plain = plain_holding(opening);
    Side::new(move || {
        plain.text.clear();
        plain.text.extend_from_slice(opening);
        timed(|| judged(black_box(&plain.text)).then(|| plain.apply(black_box(&edit))))
    })
}

pub fn shifts() {
    let opening = cases::mixed_text(CHARACTERS);
    let core = Core::holding(&opening);
    let view = original::View::from_str(&string(&opening));
    table(
        "shift over",
        &["original, stand-in rope", "original after scan"],
    );
    for (name, whole) in cases::edits(&opening) {
        shift_compared(name, &core, &view, &whole);
    }
}

fn shift_compared(name: &str, core: &Core, view: &original::View, whole: &Whole) {
    let pos = Position {
        row: whole.edit.start.row + 3,
        col: 35,
    };
    let edit = original_edit(plain_edit(whole));
    let by_core = || {
        let w = black_box(whole);
        shift_position(
            &core.text, core.view, w.edit, &w.payload, &w.first, &w.second, pos,
        )
    };
    let by_original = || {
        let line_len = |row| view.line_len(row);
        original::shift_position(
            original_position(pos),
            black_box(&edit),
            line_len,
            view.row_count(),
        )
    };
    assert_eq!(
        by_core().map(|found| found.map(original_position)),
        Ok(by_original())
    );
    let text = &core.text[..core.view.used];
    let scanned = || all_admissible(black_box(text)) & all_admissible(black_box(&whole.payload));
    report(
        name,
        vec![
            Side::new(|| timed(by_core)),
            Side::new(|| timed(by_original)),
            Side::new(|| timed(|| scanned().then(by_original))),
        ],
    );
}

pub fn utf8() {
    let ascii = (0..CHARACTERS as u32).map(|i| 0x20 + i % 95).collect();
    let kana = (0..CHARACTERS as u32).map(|i| 0x3041 + i % 86).collect();
    let texts = [
        ("ASCII", ascii),
        ("kana", kana),
        ("mixed", cases::mixed_text(CHARACTERS)),
    ];
    let texts = texts.map(|(name, scalars)| (name, string(&scalars).into_bytes(), scalars));
    table("decode", &["str::from_utf8, chars"]);
    for (name, bytes, scalars) in &texts {
        decoding(name, bytes, scalars);
    }
    table("encode", &["char::from_u32, String::push"]);
    for (name, bytes, scalars) in &texts {
        encoding(name, bytes, scalars);
    }
}

fn decoding(name: &str, bytes: &[u8], scalars: &[u32]) {
    let mut out = vec![0; scalars.len()];
    let mut list = Vec::with_capacity(scalars.len());
    let by_core = |out: &mut [u32]| decode(black_box(bytes), out);
    let by_rust = |list: &mut Vec<u32>| {
        let text = std::str::from_utf8(black_box(bytes)).expect("UTF-8");
        list.clear();
        list.extend(text.chars().map(u32::from));
    };
    assert_eq!(by_core(&mut out), Ok(scalars.len()));
    by_rust(&mut list);
    assert_eq!((out.as_slice(), list.as_slice()), (scalars, scalars));
    report(
        name,
        vec![
            Side::new(|| timed(|| by_core(&mut out))),
            Side::new(|| timed(|| by_rust(&mut list))),
        ],
    );
}

fn encoding(name: &str, bytes: &[u8], scalars: &[u32]) {
    let mut out = vec![0; bytes.len()];
    let mut text = String::with_capacity(bytes.len());
    let by_core = |out: &mut [u8]| encode(black_box(scalars), out);
    let by_rust = |text: &mut String| {
        text.clear();
        for &value in black_box(scalars) {
            text.push(char::from_u32(value).expect("a scalar"));
        }
    };
    assert_eq!(by_core(&mut out), Ok(bytes.len()));
    by_rust(&mut text);
    assert_eq!((out.as_slice(), text.as_bytes()), (bytes, bytes));
    report(
        name,
        vec![
            Side::new(|| timed(|| by_core(&mut out))),
            Side::new(|| timed(|| by_rust(&mut text))),
        ],
    );
}

/// A number that looks like chance and is the same in every run.
fn scattered(i: u32) -> u32 {
    i.wrapping_mul(2_654_435_761) >> 12
}

fn selection(row: u32, col: u32, length: u32) -> Sel {
    Sel {
        anchor: Position { row, col },
        head: Position {
            row,
            col: col + length,
        },
    }
}

pub fn merging() {
    let random = |i| {
        selection(
            scattered(i) % 4_000,
            scattered(i + 7) % 100,
            scattered(i + 9) % 20,
        )
    };
    let sorted = |i| selection(i, 10, 5);
    let falling = |i| selection(SELECTIONS - i, 10, 5);
    let overlapping = |i| selection(5, scattered(i) % 50, 60);
    let sels = |make: fn(u32) -> Sel| (0..SELECTIONS).map(make).collect();
    table("merge", &["original"]);
    merge_compared("random", sels(random));
    merge_compared("sorted", sels(sorted));
    merge_compared("falling", sels(falling));
    merge_compared("all overlapping", sels(overlapping));
}

fn original_sels(sels: &[Sel]) -> Vec<original::Sel> {
    let made = sels
        .iter()
        .map(|sel| original::Sel::new(original_position(sel.anchor), original_position(sel.head)));
    made.collect()
}

fn merge_compared(name: &str, given: Vec<Sel>) {
    let sels = original_sels(&given);
    let mut out = vec![Sel::default(); given.len()];
    let count = merge_overlapping(&given, &mut out).expect("the selections are accepted");
    assert_eq!(
        original_sels(&out[..count]),
        original::merge_overlapping(sels.clone())
    );
    report(
        &format!("{SELECTIONS}, {name}"),
        vec![
            Side::new(|| timed(|| merge_overlapping(black_box(&given), &mut out))),
            Side::new(|| {
                let sels = sels.clone();
                timed(|| original::merge_overlapping(black_box(sels)))
            }),
        ],
    );
}

pub fn scripts() {
    let text = string(&cases::mixed_text(SCRIPT_TEXT));
    let script = script::typed_and_taken_back(&text, SCRIPT_EDITS);
    let script = script.as_bytes();
    let printed = script::run(script);
    let mut out = vec![0; printed.len()];
    assert_eq!(run_script(script, &mut out), Ok(printed.len()));
    assert_eq!(out, printed);
    table("script", &["plain"]);
    report(
        &format!("{SCRIPT_EDITS} edits"),
        vec![
            Side::new(|| timed(|| run_script(black_box(script), &mut out))),
            Side::new(|| timed(|| script::run(black_box(script)))),
        ],
    );
}
