//! `decode` and `encode` beside Rust's own strings.

use std::fmt;
use std::str;

use winchbarn::{Refusal, raw};

use crate::calls::Shown;
use crate::frames::encoded;
use crate::guard::Guarded;
use crate::law::{Answer, refusal};
use crate::random::Random;
use crate::tally::{Input, Tally, Verdict};
use crate::told;
use crate::work::{Extent, Work};

/// Bytes to be read into so much room.
pub struct Decoding {
    pub bytes: Vec<u8>,
    pub room: usize,
}

/// Values to be written into so much room.
pub struct Encoding {
    pub values: Vec<u32>,
    pub room: usize,
}

/// The output, unless it is too long for its room.
fn fitted<T>(output: Vec<T>, room: usize) -> Answer<Vec<T>> {
    if output.len() > room {
        return Err(refusal(8));
    }
    Ok(output)
}

impl Decoding {
    fn expected(&self) -> Answer<Vec<u32>> {
        match str::from_utf8(&self.bytes) {
            Ok(string) => fitted(string.chars().map(u32::from).collect(), self.room),
            Err(error) => Err(Refusal::BadUtf8 {
                offset: error.valid_up_to(),
            }),
        }
    }

    pub fn compare(&self) -> Verdict {
        let bytes = Guarded::of(&self.bytes);
        let mut out = Guarded::room(self.room);
        let answer = raw::decode(bytes.lent(), out.lent_mut());
        bytes.expect_kept("bytes")?;
        let expected = self.expected();
        let verdict = told::same(&told::length(&expected), told::counted, answer)?;
        out.expect("scalars", &expected.unwrap_or_default())?;
        Ok(verdict)
    }
}

impl Encoding {
    fn expected(&self) -> Answer<Vec<u8>> {
        fitted(encoded(&self.values)?, self.room)
    }

    pub fn compare(&self) -> Verdict {
        let values = Guarded::of(&self.values);
        let mut out = Guarded::room(self.room);
        let answer = raw::encode(values.lent(), out.lent_mut());
        values.expect_kept("values")?;
        let expected = self.expected();
        let verdict = told::same(&told::length(&expected), told::counted, answer)?;
        out.expect("bytes", &expected.unwrap_or_default())?;
        Ok(verdict)
    }
}

impl fmt::Display for Decoding {
    fn fmt(&self, f: &mut fmt::Formatter<'_>) -> fmt::Result {
        let shown = &self.bytes[..self.bytes.len().min(200)];
        let bytes = self.bytes.len();
        write!(f, "{bytes} bytes {shown:02x?}, room {}", self.room)
    }
}

impl Input for Decoding {
    fn size(&self) -> usize {
        self.bytes.len()
    }
}

impl fmt::Display for Encoding {
    fn fmt(&self, f: &mut fmt::Formatter<'_>) -> fmt::Result {
        let values = Shown(&self.values);
        write!(
            f,
            "{} values {values}, room {}",
            self.values.len(),
            self.room
        )
    }
}

impl Input for Encoding {
    fn size(&self) -> usize {
        self.values.len()
    }
}

/// Just enough room and one element less; much and none for what is refused whatever its room is.
fn rooms(needed: Option<usize>, much: usize) -> Vec<usize> {
    match needed {
        Some(0) => vec![0],
        Some(needed) => vec![needed, needed - 1],
        None => vec![much, 0],
    }
}

fn compare_decoding(tally: &mut Tally, bytes: Vec<u8>) {
    let needed = str::from_utf8(&bytes).map(|it| it.chars().count());
    let mut decoding = Decoding { bytes, room: 0 };
    for room in rooms(needed.ok(), decoding.bytes.len()) {
        decoding.room = room;
        tally.note(&decoding, decoding.compare());
    }
}

fn compare_encoding(tally: &mut Tally, values: Vec<u32>) {
    let needed = encoded(&values).map(|it| it.len());
    let mut encoding = Encoding { values, room: 0 };
    for room in rooms(needed.ok(), 4 * encoding.values.len()) {
        encoding.room = room;
        tally.note(&encoding, encoding.compare());
    }
}

/// Reads every sequence that begins with `front` and goes on with one byte of each set.
fn compare_each(tally: &mut Tally, front: &[u8], sets: &[&[u8]]) {
    let Some((set, behind)) = sets.split_first() else {
        return compare_decoding(tally, front.to_vec());
    };
    for byte in *set {
        compare_each(tally, &[front, &[*byte]].concat(), behind);
    }
}

/// All sequences of one and two bytes, those of three behind some or all leads, those of four at the ranges' ends.
pub fn sequences(work: &mut Work) {
    let every: Vec<u8> = (0..=u8::MAX).collect();
    let (of_two, of_three): (&[u8], &[u8]) = match work.extent {
        Extent::Tiny => (&[0x41, 0xc2, 0xed], &[]),
        Extent::Quick => (&every, &[0x41, 0x80, 0xc2, 0xe0, 0xe1, 0xed, 0xef, 0xf0]),
        Extent::Long => (&every, &every),
    };
    let of_four = [0xe1, 0xef, 0xf0, 0xf1, 0xf3, 0xf4, 0xf5, 0xf8];
    let tally = &mut work.tally;
    compare_each(tally, &[], &[&every]);
    compare_each(tally, &[], &[of_two, &every]);
    compare_each(tally, &[], &[of_three, &every, &every]);
    compare_each(tally, &[], &[&of_four, &ENDS, &ENDS, &ENDS]);
}

/// Where the ranges of RFC 3629's second bytes and tails begin and end.
const ENDS: [u8; 10] = [0x00, 0x7f, 0x80, 0x8f, 0x90, 0x9f, 0xa0, 0xbf, 0xc0, 0xff];

/// Every value up to and past the last scalar, written alone; every scalar's bytes read alone.
pub fn scalars(work: &mut Work) {
    let step = match work.extent {
        Extent::Tiny => 997,
        _ => 1,
    };
    for value in (0..=0x11_0010).step_by(step) {
        compare_encoding(&mut work.tally, vec![value]);
        if let Ok(bytes) = encoded(&[value]) {
            compare_decoding(&mut work.tally, bytes);
        }
    }
}

/// Scalars of every length, with one value that is none here and there.
pub fn any_values(random: &mut Random) -> Vec<u32> {
    let length = match random.below(400) {
        0 => random.below(20_000),
        _ => random.below(24),
    };
    let mut values: Vec<u32> = (0..length).map(|_| any_scalar(random)).collect();
    if length > 0 && random.one_in(6) {
        let none = random.pick(&[0xd800, 0xdbff, 0xdfff, 0x11_0000, u32::MAX]);
        values[random.below(length)] = none;
    }
    values
}

fn any_scalar(random: &mut Random) -> u32 {
    let most = random.pick(&[0x7f, 0x7ff, 0xffff, 0x10_ffff]);
    let value = random.between(0, most) as u32;
    match value {
        0xd800..=0xdfff => random.pick(&[0xd7ff, 0xe000]),
        _ => value,
    }
}

/// Well-formed bytes with some of them changed, cut or put in; or any bytes.
fn any_bytes(random: &mut Random) -> Vec<u8> {
    let length = random.below(24);
    if random.one_in(4) {
        return (0..length).map(|_| random.word() as u8).collect();
    }
    let values: Vec<u32> = (0..length).map(|_| any_scalar(random)).collect();
    let mut bytes = encoded(&values).expect("scalars");
    for _ in 0..random.below(3) {
        damage(random, &mut bytes);
    }
    bytes
}

fn damage(random: &mut Random, bytes: &mut Vec<u8>) {
    if bytes.is_empty() {
        return;
    }
    let at = random.below(bytes.len());
    let byte = random.pick(&[0x80, 0xbf, 0xc0, 0xc3, 0xe0, 0xed, 0xf4, 0xf8, 0xff]);
    match random.below(5) {
        0 => bytes[at] = random.word() as u8,
        1 => bytes[at] = byte,
        2 => bytes.insert(at, byte),
        3 => drop(bytes.remove(at)),
        _ => bytes.truncate(at),
    }
}

pub fn random(work: &mut Work) {
    while work.tally.cases() < work.cases {
        let bytes = any_bytes(&mut work.random);
        compare_decoding(&mut work.tally, bytes);
        let values = any_values(&mut work.random);
        if let Ok(bytes) = encoded(&values) {
            compare_decoding(&mut work.tally, bytes);
        }
        compare_encoding(&mut work.tally, values);
    }
}
