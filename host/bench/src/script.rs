//! A script of insertions and deletes, and a plain program that runs it.

use std::fmt::Write;

use winchbarn::Position;

use crate::plain::{Edit, Plain};

/// A text, then insertions of one character at changing places, each followed by the delete that takes it back.
pub fn typed_and_taken_back(text: &str, edits: usize) -> String {
    let mut script = String::from("01");
    for byte in text.bytes() {
        write!(script, "{byte:02x}").unwrap();
    }
    script.push('\n');
    for i in 0..edits / 2 {
        let (row, col) = (i * 13 % 60, i * 7 % 50);
        writeln!(script, "10{row:08x}{col:08x}62").unwrap();
        writeln!(script, "1100{row:08x}{col:08x}{row:08x}{:08x}", col + 1).unwrap();
    }
    script
}

/// Runs a script of text, InsertStr and Char delete frames and answers what scriptrun prints. It trusts its input.
pub fn run(script: &[u8]) -> Vec<u8> {
    let mut plain = Plain::default();
    let mut printed = Vec::new();
    let mut frame = Vec::new();
    for line in script
        .strip_suffix(b"\n")
        .unwrap_or(script)
        .split(|&byte| byte == b'\n')
    {
        frame.clear();
        frame.extend(
            line.chunks_exact(2)
                .map(|pair| digit(pair[0]) << 4 | digit(pair[1])),
        );
        if frame[0] == 0x01 {
            plain.text = decoded(&frame[1..]);
        } else {
            printed.extend_from_slice(b"00");
            write_frame(&mut printed, &plain.apply(&read_edit(&frame)));
        }
    }
    printed.extend_from_slice(b"01");
    write_text(&mut printed, &plain.text);
    printed.push(b'\n');
    printed
}

fn read_edit(frame: &[u8]) -> Edit {
    match frame[0] {
        0x10 => Edit::InsertStr {
            at: position(&frame[1..9]),
            text: decoded(&frame[9..]),
        },
        0x11 if frame[1] == 0 => Edit::DeleteChar {
            start: position(&frame[2..10]),
            end: position(&frame[10..18]),
        },
        other => panic!("the frame {other:02x} is not run here"),
    }
}

fn write_frame(out: &mut Vec<u8>, edit: &Edit) {
    match edit {
        Edit::InsertStr { at, text } => {
            out.extend_from_slice(b"10");
            write_position(out, *at);
            write_text(out, text);
        }
        Edit::DeleteChar { start, end } => {
            out.extend_from_slice(b"1100");
            write_position(out, *start);
            write_position(out, *end);
        }
        other => unreachable!("no inverse here is {other:?}"),
    }
    out.push(b'\n');
}

fn digit(digit: u8) -> u8 {
    match digit {
        b'0'..=b'9' => digit - b'0',
        _ => digit - b'a' + 10,
    }
}

fn decoded(bytes: &[u8]) -> Vec<u32> {
    let text = std::str::from_utf8(bytes).expect("the script holds UTF-8");
    text.chars().map(u32::from).collect()
}

fn position(bytes: &[u8]) -> Position {
    let number = |at: usize| u32::from_be_bytes(bytes[at..at + 4].try_into().unwrap());
    Position {
        row: number(0),
        col: number(4),
    }
}

fn write_position(out: &mut Vec<u8>, at: Position) {
    write_hex(out, &at.row.to_be_bytes());
    write_hex(out, &at.col.to_be_bytes());
}

fn write_text(out: &mut Vec<u8>, text: &[u32]) {
    let mut encoded = [0; 4];
    for &value in text {
        let scalar = char::from_u32(value).expect("a text holds scalars");
        write_hex(out, scalar.encode_utf8(&mut encoded).as_bytes());
    }
}

fn write_hex(out: &mut Vec<u8>, bytes: &[u8]) {
    const DIGITS: &[u8; 16] = b"0123456789abcdef";
    for &byte in bytes {
        out.push(DIGITS[usize::from(byte >> 4)]);
        out.push(DIGITS[usize::from(byte & 15)]);
    }
}
