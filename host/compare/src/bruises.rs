//! What goes wrong with a call, by chance.

use crate::calls::Call;
use crate::cases::{EDGES, INADMISSIBLE, litter};
use crate::law::LF;
use crate::random::Random;

fn spoil_item(random: &mut Random, list: &mut [u32], value: u32) {
    if !list.is_empty() {
        list[random.below(list.len())] = value;
    }
}

fn spoil_text(random: &mut Random, call: &mut Call) {
    let value = random.pick(&INADMISSIBLE);
    let used = call.view.used.min(call.buffer.len());
    spoil_item(random, &mut call.buffer[..used], value);
}

fn spoil_payload(random: &mut Random, call: &mut Call) {
    let value = random.pick(&INADMISSIBLE);
    spoil_item(random, &mut call.whole.payload, value);
}

fn break_chunk(random: &mut Random, call: &mut Call) {
    spoil_item(random, &mut call.whole.payload, LF);
}

fn resize_payload(random: &mut Random, call: &mut Call) {
    match random.one_in(2) {
        true => call.whole.payload.push(0x61),
        false => drop(call.whole.payload.pop()),
    }
}

fn raise_number(random: &mut Random, call: &mut Call) {
    let edge = random.pick(&EDGES);
    let edit = &mut call.whole.edit;
    match random.below(5) {
        0 => edit.start.row = edge,
        1 => edit.start.col = edge,
        2 => edit.end.row = edge,
        3 => edit.end.col = edge,
        _ => edit.count = edge,
    }
}

fn raise_item(random: &mut Random, call: &mut Call) {
    let edge = random.pick(&EDGES);
    match random.one_in(2) {
        true => spoil_item(random, &mut call.whole.first, edge),
        false => spoil_item(random, &mut call.whole.second, edge),
    }
}

fn lengthen_list(random: &mut Random, call: &mut Call) {
    let count = random.between(254, 259);
    match random.one_in(2) {
        true => call.whole.first.resize(count, 0),
        false => call.whole.second.resize(count, 0),
    }
}

fn widen_span(random: &mut Random, call: &mut Call) {
    let edit = &mut call.whole.edit;
    edit.end.row = edit
        .start
        .row
        .saturating_add(random.between(253, 258) as u32);
}

fn use_too_much(random: &mut Random, call: &mut Call) {
    call.view.used = call.buffer.len() + random.pick(&[1, 2, 20_000, usize::MAX - 100_000]);
}

fn forget_kind(random: &mut Random, call: &mut Call) {
    call.whole.edit.kind = random.pick(&[11, 12, 255, 256, u32::MAX]);
}

const BRUISES: [fn(&mut Random, &mut Call); 11] = [
    spoil_text,
    spoil_payload,
    break_chunk,
    resize_payload,
    raise_number,
    raise_item,
    lengthen_list,
    widen_span,
    use_too_much,
    forget_kind,
    |random, call| litter(random, &mut call.whole),
];

/// Puts up to three things wrong.
pub fn bruise(random: &mut Random, call: &mut Call) {
    for _ in 0..random.pick(&[1, 1, 2, 3]) {
        random.pick(&BRUISES)(random, call);
    }
}
