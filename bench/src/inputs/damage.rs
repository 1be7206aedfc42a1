//! Damage done to a message: one kind at a time, and now and then two.

use super::valid::Sample;
use super::{other, Input, Rng, MESSAGES};
use crate::plain::BODY_MAX;

/// The sample, no longer what it was (but for a rare lucky draw).
pub fn damage(rng: &mut Rng, mut sample: Sample) -> Input {
    strike(rng, &mut sample);
    if rng.one_in(4) && sample.bytes.len() >= 8 {
        // The places of the strings may have moved out of the bytes.
        let end = sample.bytes.len();
        sample.strings.retain(|at| at + 5 <= end);
        strike(rng, &mut sample);
    }
    sample.into_input()
}

fn strike(rng: &mut Rng, sample: &mut Sample) {
    match rng.below(13) {
        0 => flip_few(rng, &mut sample.bytes),
        1 => flip_many(rng, &mut sample.bytes),
        2 => cut(rng, &mut sample.bytes),
        3 => change_body_length(rng, sample),
        4 => shorten_body(rng, sample),
        5 => change_string_length(rng, sample),
        6 => change_string_format(rng, sample),
        7 => sample.side = other(sample.side),
        8 => change_instruction(rng, sample),
        9 => leave_over(rng, sample),
        10 => put_behind(rng, &mut sample.bytes),
        11 => change_first_fields(rng, &mut sample.bytes),
        _ => sample.bytes = garbage(rng),
    }
}

/// One to three bytes, most often near the front, where the fields are.
fn flip_few(rng: &mut Rng, bytes: &mut [u8]) {
    for _ in 0..rng.between(1, 3) {
        let near = if rng.one_in(3) { bytes.len() } else { bytes.len().min(24) };
        bytes[rng.below(near)] ^= 1 << rng.below(8);
    }
}

/// Each byte once in eight times, with or without the head.
fn flip_many(rng: &mut Rng, bytes: &mut [u8]) {
    let from = rng.pick(&[0, 8]);
    for byte in &mut bytes[from..] {
        if rng.one_in(8) {
            *byte = rng.byte();
        }
    }
}

fn cut(rng: &mut Rng, bytes: &mut Vec<u8>) {
    let end = bytes.len() - 1;
    let length = match rng.below(4) {
        0 => rng.between(0, end),
        1 => end - rng.between(0, end.min(8)),
        _ => rng.between(0, end.min(32)),
    };
    bytes.truncate(length);
}

/// A number that a length field should not hold, or one near what it held.
fn odd_length(rng: &mut Rng, right: u32) -> u32 {
    let limit = BODY_MAX as u32;
    match rng.below(8) {
        0 => u32::MAX,
        1 => u32::MAX - rng.below(16) as u32,
        2 => limit + rng.below(3) as u32 - 1,
        3 => rng.int(),
        4 => 0,
        5 => 1 << rng.below(32),
        6 => right.wrapping_sub(rng.between(1, 9) as u32),
        _ => right.wrapping_add(rng.between(1, 9) as u32),
    }
}

fn change_body_length(rng: &mut Rng, sample: &mut Sample) {
    let length = odd_length(rng, sample.int_at(4));
    sample.set_int(4, length);
    if rng.one_in(2) {
        put_behind(rng, &mut sample.bytes);
    }
}

/// The body ends earlier, and what it had stays behind it.
fn shorten_body(rng: &mut Rng, sample: &mut Sample) {
    let length = sample.int_at(4) as usize;
    let most = rng.pick(&[24, BODY_MAX]);
    let shorter = rng.between(0, length.min(most));
    sample.set_int(4, shorter as u32);
}

fn change_string_length(rng: &mut Rng, sample: &mut Sample) {
    if !sample.strings.is_empty() {
        let at = rng.pick(&sample.strings) + 1;
        let length = odd_length(rng, sample.int_at(at));
        sample.set_int(at, length);
    }
}

fn change_string_format(rng: &mut Rng, sample: &mut Sample) {
    if !sample.strings.is_empty() {
        let at = rng.pick(&sample.strings);
        sample.bytes[at] = rng.between(1, 255) as u8;
    }
}

/// A number beside a known one, another known one, or any.
fn change_instruction(rng: &mut Rng, sample: &mut Sample) {
    let known = rng.pick(&MESSAGES).0;
    let instruction = match rng.below(6) {
        0 => known + 1,
        1 => known - 1,
        2 => known,
        3 => known | 1 << rng.between(10, 31),
        4 => known.swap_bytes(),
        _ => rng.int(),
    };
    sample.set_int(0, instruction);
}

/// Bytes behind the fields that the body's length counts in.
fn leave_over(rng: &mut Rng, sample: &mut Sample) {
    let end = (8 + sample.int_at(4) as usize).min(sample.bytes.len());
    let more = rng.between(1, 12);
    let tail = sample.bytes.split_off(end);
    rng.extend(&mut sample.bytes, more);
    sample.bytes.extend(tail);
    let length = sample.int_at(4).wrapping_add(more as u32);
    sample.set_int(4, length);
}

fn put_behind(rng: &mut Rng, bytes: &mut Vec<u8>) {
    let more = rng.between(1, 40);
    rng.extend(bytes, more);
}

/// The bytes that stand for version, format, class, type and flag.
fn change_first_fields(rng: &mut Rng, bytes: &mut [u8]) {
    let fields = bytes.len().min(11);
    for byte in &mut bytes[8..fields] {
        if rng.one_in(2) {
            let any = rng.byte();
            *byte = rng.pick(&[0, 1, 2, 4, 5, 6, 7, 8, 9, 10, 32, 33, 40, 41, 61, 62, any]);
        }
    }
}

/// No message at all, or only a head of one.
fn garbage(rng: &mut Rng) -> Vec<u8> {
    let length = rng.between(8, 64);
    let mut bytes = rng.bytes(length);
    if rng.one_in(2) {
        bytes[..4].copy_from_slice(&rng.pick(&MESSAGES).0.to_be_bytes());
        bytes[4..8].copy_from_slice(&(rng.between(0, length) as u32).to_be_bytes());
    }
    bytes
}
