//! Inputs that are gone through one by one instead of drawn.

use super::valid::{sample, Sample};
use super::{other, Input, Rng, MESSAGES};
use crate::plain::{Shape, Side};

const SIDES: [Side; 2] = [Side::Client, Side::Server];

pub fn sweep() -> impl Iterator<Item = Input> {
    heads().chain(cuts_and_lengths()).chain(edges())
}

/// Every instruction up to 1,023 from both sides, with lengths that no body
/// follows.
fn heads() -> impl Iterator<Item = Input> {
    (0..1024u32).flat_map(|instruction| {
        SIDES.into_iter().flat_map(move |side| {
            [0, 1, 10_240, 10_241, u32::MAX].map(|length| {
                let bytes = [instruction.to_be_bytes(), length.to_be_bytes()].concat();
                Input { side, bytes }
            })
        })
    })
}

/// Short messages of every instruction: cut everywhere, with every smaller and
/// a few larger body lengths, each byte changed in each bit, and from both sides.
fn cuts_and_lengths() -> impl Iterator<Item = Input> {
    MESSAGES.into_iter().enumerate().flat_map(|(k, message)| {
        let mut rng = Rng::new(1000 + k as u64);
        let mut all = Vec::new();
        for length in [0, 14, 24, 37] {
            let sample = sample(&mut rng, message, length);
            every_cut(&sample, &mut all);
            every_length(&sample, &mut all);
            every_bit(&sample, &mut all);
            all.push(Input { side: other(sample.side), bytes: sample.bytes });
        }
        all
    })
}

fn every_cut(sample: &Sample, all: &mut Vec<Input>) {
    all.extend(
        (0..=sample.bytes.len())
            .map(|end| Input { side: sample.side, bytes: sample.bytes[..end].to_vec() }),
    );
}

/// With bytes enough behind for each length.
fn every_length(sample: &Sample, all: &mut Vec<Input>) {
    for length in 0..sample.bytes.len() as u32 {
        let mut bytes = sample.bytes.clone();
        bytes[4..8].copy_from_slice(&length.to_be_bytes());
        bytes.extend([0; 8]);
        all.push(Input { side: sample.side, bytes });
    }
}

fn every_bit(sample: &Sample, all: &mut Vec<Input>) {
    for bit in 0..8 * sample.bytes.len() {
        let mut bytes = sample.bytes.clone();
        bytes[bit / 8] ^= 1 << (bit % 8);
        all.push(Input { side: sample.side, bytes });
    }
}

/// Every value of each byte that has values not allowed, the body whole and
/// the body ending right behind that byte.
fn edges() -> impl Iterator<Item = Input> {
    let places = [
        (Shape::Session, 8),
        (Shape::Session, 9),
        (Shape::Statement, 8),
        (Shape::Item, 8),
        (Shape::Item, 9),
        (Shape::Item, 10),
    ];
    places.into_iter().flat_map(|(shape, at)| {
        let mut rng = Rng::new(2000 + at as u64);
        let messages = MESSAGES.into_iter().filter(move |m| m.2 == shape);
        messages.flat_map(move |message| {
            let whole = sample(&mut rng, message, 40);
            (0..=255).flat_map(move |value| edge(&whole, at, value))
        })
    })
}

fn edge(whole: &Sample, at: usize, value: u8) -> [Input; 2] {
    let mut bytes = whole.bytes.clone();
    bytes[at] = value;
    let mut short = bytes[..=at].to_vec();
    short[4..8].copy_from_slice(&(at as u32 - 7).to_be_bytes());
    [bytes, short].map(|bytes| Input { side: whole.side, bytes })
}
