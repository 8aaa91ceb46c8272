//! What can happen to a line on its way.

use crate::frames::DIGIT_LIMIT;
use crate::random::Random;

const DIGITS: &[u8; 16] = b"0123456789abcdef";

fn change_digit(random: &mut Random, line: &mut [u8]) {
    if !line.is_empty() {
        let at = random.below(line.len());
        line[at] = random.pick(DIGITS);
    }
}

/// Puts one of these in the place of a byte, mostly near the end, where text is ill-formed by it.
fn change_byte(random: &mut Random, line: &mut [u8]) {
    let bytes = line.len() / 2;
    if bytes > 0 {
        let last = random.pick(&[bytes, 8, 4]);
        let at = 2 * (bytes - 1 - random.below(bytes.min(last)));
        let byte = random.pick(&[
            b"80", b"c3", b"ed", b"f4", b"ff", b"00", b"01", b"0a", b"0d",
        ]);
        line[at..at + 2].copy_from_slice(byte);
    }
}

/// Another frame's first byte, or none's.
fn change_first(random: &mut Random, line: &mut [u8]) {
    if line.len() >= 2 {
        let first = [
            b"00", b"01", b"02", b"03", b"10", b"11", b"12", b"13", b"14", b"15", b"16", b"17",
            b"f0",
        ];
        let first = random.pick(&first);
        line[..2].copy_from_slice(first);
    }
}

fn cut(random: &mut Random, line: &mut Vec<u8>) {
    line.truncate(random.below(line.len() + 1));
}

fn cut_bytes(random: &mut Random, line: &mut Vec<u8>) {
    line.truncate(2 * random.below(line.len() / 2 + 1));
}

fn drop_digit(random: &mut Random, line: &mut Vec<u8>) {
    if !line.is_empty() {
        line.remove(random.below(line.len()));
    }
}

fn double_part(random: &mut Random, line: &mut Vec<u8>) {
    let start = random.below(line.len() + 1);
    let end = random.between(start, line.len());
    let part = line[start..end].to_vec();
    line.splice(start..start, part);
}

fn put_other(random: &mut Random, line: &mut Vec<u8>) {
    let other = random.pick(b" gGAF\r\t/:`@\0\x7f\xff");
    let at = random.below(line.len() + 1);
    match random.one_in(2) && at < line.len() {
        true => line[at] = other,
        false => line.insert(at, other),
    }
}

fn add_bytes(random: &mut Random, line: &mut Vec<u8>) {
    for _ in 0..random.between(1, 5) {
        line.extend(random.pick(&[b"00", b"01", b"61", b"20", b"0a"]));
    }
}

/// As long as a line may be, or longer.
fn lengthen(random: &mut Random, line: &mut Vec<u8>) {
    let length = DIGIT_LIMIT + random.pick(&[0, 1, 2, 100]);
    let pair = random.pick(&[b"61", b"00", b"20"]);
    while line.len() + 2 <= length {
        line.extend(pair);
    }
}

const USUAL: [fn(&mut Random, &mut Vec<u8>); 9] = [
    |random, line| change_digit(random, line),
    |random, line| change_first(random, line),
    |_, line| line.make_ascii_uppercase(),
    cut,
    cut_bytes,
    drop_digit,
    double_part,
    put_other,
    add_bytes,
];

/// Does one thing to the line: often what leaves its form, seldom what takes long or leaves nothing.
pub fn damage(random: &mut Random, line: &mut Vec<u8>) {
    match random.below(200) {
        0 => lengthen(random, line),
        1 => line.clear(),
        2..100 => change_byte(random, line),
        _ => random.pick(&USUAL)(random, line),
    }
}
