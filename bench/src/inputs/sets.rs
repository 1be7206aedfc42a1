//! The messages whose reading and writing are timed.

use super::valid::{sample, Sample};
use super::{Input, Rng, MESSAGES};
use crate::plain::{Shape, BODY_MAX};

const SMALL_MESSAGES: usize = 600;
const FULL_MESSAGES: usize = 8;
/// Below this many, the pairs of a full `SetOptions` are not called many.
const MANY_PAIRS: usize = 300;

/// How many of a hundred small messages have each shape: a session mostly
/// asks for items and gets them, and now and then an error.
const MIX: [(Shape, usize); 7] = [
    (Shape::Empty, 30),
    (Shape::Item, 20),
    (Shape::Text, 20),
    (Shape::Statement, 12),
    (Shape::Coded, 10),
    (Shape::Session, 4),
    (Shape::Options, 4),
];

/// Messages of 8 to 64 bytes, of all shapes.
pub fn small() -> Vec<Input> {
    let mut rng = Rng::new(3);
    (0..SMALL_MESSAGES)
        .map(|k| {
            let shape = shape_at(k % 100);
            let of_shape: Vec<_> = MESSAGES.into_iter().filter(|m| m.2 == shape).collect();
            let message = rng.pick(&of_shape);
            let length = rng.between(0, 56);
            sample(&mut rng, message, length).into_input()
        })
        .collect()
}

fn shape_at(mut place: usize) -> Shape {
    for (shape, share) in MIX {
        if place < share {
            return shape;
        }
        place -= share;
    }
    unreachable!("the shares are of a hundred")
}

/// Messages of one instruction with a body of 10,240 bytes.
pub fn full(instruction: u32) -> Vec<Input> {
    let message = MESSAGES.into_iter().find(|m| m.0 == instruction);
    let message = message.expect("a known instruction");
    let mut rng = Rng::new(4);
    let samples = std::iter::from_fn(|| Some(sample(&mut rng, message, BODY_MAX)));
    samples
        .filter(|s| message.2 != Shape::Options || s.strings.len() >= MANY_PAIRS)
        .map(Sample::into_input)
        .take(FULL_MESSAGES)
        .collect()
}

/// A text that takes about a hundred messages.
pub fn big_text() -> Vec<u8> {
    Rng::new(14).bytes(1_000_000)
}

/// `calls` places in a list of `count`, each as often as the others, in an
/// order that no branch predictor knows by heart.
pub fn shuffled(count: usize, calls: usize) -> Vec<usize> {
    let mut order: Vec<_> = (0..calls).map(|k| k % count).collect();
    Rng::new(5).shuffle(&mut order);
    order
}

#[cfg(test)]
mod tests {
    use super::*;
    use crate::plain::{entry, read, HEAD};
    use std::collections::BTreeSet;

    #[test]
    fn small_messages_of_all_shapes() {
        let set = small();
        let different: BTreeSet<_> = set.iter().map(|input| &input.bytes).collect();
        assert!(different.len() >= 400, "{}", different.len());
        for (shape, _) in MIX {
            let of_shape = |input: &&Input| {
                let message = read(input.side, &input.bytes).unwrap();
                entry(message.instruction).unwrap().1 == shape
            };
            assert!(set.iter().filter(of_shape).count() >= 4 * set.len() / 100);
        }
        assert!(set.iter().all(|input| (8..=64).contains(&input.bytes.len())));
    }

    #[test]
    fn full_messages_are_full() {
        for instruction in [300, 360, 410, 530] {
            for input in full(instruction) {
                assert_eq!(input.bytes.len(), HEAD + BODY_MAX);
                assert!(read(input.side, &input.bytes).is_ok());
            }
        }
    }
}
