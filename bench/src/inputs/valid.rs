//! Messages as the protocol has them, put together byte by byte.

use super::{Input, Rng};
use crate::plain::{Shape, Side, BODY_MAX};

/// A message, and where damage finds its strings.
pub struct Sample {
    pub side: Side,
    pub bytes: Vec<u8>,
    /// The places of the format bytes.
    pub strings: Vec<usize>,
}

impl Sample {
    pub fn into_input(self) -> Input {
        Input { side: self.side, bytes: self.bytes }
    }

    pub fn set_int(&mut self, at: usize, value: u32) {
        self.bytes[at..at + 4].copy_from_slice(&value.to_be_bytes());
    }

    pub fn int_at(&self, at: usize) -> u32 {
        u32::from_be_bytes(self.bytes[at..at + 4].try_into().unwrap())
    }

    fn string(&mut self, rng: &mut Rng, length: usize) {
        self.strings.push(self.bytes.len());
        self.bytes.push(0);
        self.bytes.extend((length as u32).to_be_bytes());
        rng.extend(&mut self.bytes, length);
    }

    /// One string that leaves nothing of a body of `length` bytes.
    fn last_string(&mut self, rng: &mut Rng, length: usize) {
        let have = self.bytes.len() - 8;
        self.string(rng, length.saturating_sub(have + 5));
    }

    fn options(&mut self, rng: &mut Rng, length: usize) {
        let longest = rng.pick(&[0, 2, 30, BODY_MAX]);
        let mut left = if length < 9 { 0 } else { length };
        while left > 0 {
            let value = option_length(rng, left, longest);
            self.bytes.extend(rng.int().to_be_bytes());
            self.string(rng, value);
            left -= 9 + value;
        }
    }
}

/// The length of an option's value, at most `longest` or a few bytes above it,
/// that leaves room for no pair or for one at least.
fn option_length(rng: &mut Rng, left: usize, longest: usize) -> usize {
    let rest = left - 9;
    let value = rng.between(0, longest.min(rest));
    if rest - value < 9 {
        rest
    } else {
        value
    }
}

/// A body length: mostly short, and often at the limit or just above it.
pub fn body_length(rng: &mut Rng) -> usize {
    match rng.below(20) {
        0 | 1 => rng.between(BODY_MAX - 9, BODY_MAX + 9),
        2 => BODY_MAX,
        3 | 4 => rng.between(0, BODY_MAX),
        5..=7 => rng.between(0, 600),
        _ => rng.between(0, 48),
    }
}

/// A class that is allowed.
pub fn class(rng: &mut Rng) -> u8 {
    rng.between(1, 8) as u8
}

/// A type that is allowed.
pub fn kind(rng: &mut Rng) -> u8 {
    match rng.below(51) as u8 {
        k @ 0..=6 => k,
        k @ 7..=29 => k + 3,
        k => k + 11,
    }
}

/// A message with random fields and a body of `length` bytes, or of as many as
/// its shape needs at least.
pub fn sample(rng: &mut Rng, message: (u32, Side, Shape), length: usize) -> Sample {
    let (instruction, side, shape) = message;
    let mut sample = Sample { side, bytes: Vec::with_capacity(length + 64), strings: Vec::new() };
    sample.bytes.extend(instruction.to_be_bytes());
    sample.bytes.extend([0; 4]);
    match shape {
        Shape::Empty => {}
        Shape::Session => {
            let user = rng.between(0, length.saturating_sub(12));
            sample.bytes.extend([rng.between(1, 4) as u8, 0]);
            sample.string(rng, user);
            sample.last_string(rng, length);
        }
        Shape::Text => sample.last_string(rng, length),
        Shape::Statement => {
            sample.bytes.push(rng.below(2) as u8);
            sample.last_string(rng, length);
        }
        Shape::Coded => {
            sample.bytes.extend(rng.int().to_be_bytes());
            sample.last_string(rng, length);
        }
        Shape::Options => sample.options(rng, length),
        Shape::Item => item(rng, &mut sample, length),
    }
    let length = sample.bytes.len() as u32 - 8;
    sample.set_int(4, length);
    sample
}

/// Without a URL, or with one that is empty, of any length, or all there is.
fn item(rng: &mut Rng, sample: &mut Sample, length: usize) {
    let flag = rng.below(2) as u8;
    sample.bytes.extend([class(rng), kind(rng), flag]);
    if flag == 1 {
        let most = length.saturating_sub(13);
        let any = rng.between(0, most);
        let url = rng.pick(&[0, any, any, most]);
        sample.string(rng, url);
    }
    sample.last_string(rng, length);
}
