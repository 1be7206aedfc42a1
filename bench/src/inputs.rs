//! A fixed stream of inputs: the same ones in every run and on every machine.
//! Nothing here uses the plain reader or writer: a message is put together by
//! an encoder of its own. The plain session only tells which may come next.

pub mod basex;
mod cuts;
mod damage;
mod day;
mod gatherings;
mod requests;
mod rng;
mod sets;
pub mod strings;
mod sweep;
pub mod typed;
mod valid;
mod walks;
mod ways;

use crate::plain::{Shape, Side};
use damage::damage;
use rng::Rng;
use valid::{body_length, sample};

pub use cuts::{beyond, cuts, lengths, Cut};
pub use day::{day, endless};
pub use gatherings::{gatherings, Offered};
pub use requests::{requests, Request};
pub use sets::{big_text, full, shuffled, small};
pub use walks::conversations;
pub use ways::{each_message, ways};

/// Random inputs for the readers, besides the sweep.
const RANDOM_INPUTS: usize = 300_000;

/// Instruction, sender and body of the 46 messages.
pub const MESSAGES: [(u32, Side, Shape); 46] = [
    (100, Side::Server, Shape::Coded),
    (110, Side::Client, Shape::Empty),
    (120, Side::Client, Shape::Session),
    (130, Side::Client, Shape::Text),
    (140, Side::Server, Shape::Empty),
    (150, Side::Server, Shape::Empty),
    (160, Side::Server, Shape::Empty),
    (170, Side::Server, Shape::Coded),
    (210, Side::Client, Shape::Empty),
    (220, Side::Client, Shape::Empty),
    (225, Side::Client, Shape::Empty),
    (230, Side::Server, Shape::Empty),
    (240, Side::Server, Shape::Coded),
    (250, Side::Server, Shape::Empty),
    (255, Side::Server, Shape::Empty),
    (260, Side::Server, Shape::Coded),
    (265, Side::Server, Shape::Coded),
    (300, Side::Client, Shape::Statement),
    (301, Side::Client, Shape::Statement),
    (302, Side::Client, Shape::Empty),
    (310, Side::Client, Shape::Empty),
    (320, Side::Server, Shape::Empty),
    (325, Side::Server, Shape::Coded),
    (330, Side::Server, Shape::Coded),
    (340, Side::Server, Shape::Empty),
    (350, Side::Server, Shape::Coded),
    (355, Side::Server, Shape::Item),
    (360, Side::Server, Shape::Text),
    (370, Side::Server, Shape::Empty),
    (375, Side::Server, Shape::Empty),
    (400, Side::Client, Shape::Coded),
    (410, Side::Client, Shape::Text),
    (420, Side::Client, Shape::Empty),
    (430, Side::Server, Shape::Text),
    (431, Side::Server, Shape::Empty),
    (440, Side::Server, Shape::Empty),
    (450, Side::Server, Shape::Coded),
    (451, Side::Client, Shape::Empty),
    (452, Side::Server, Shape::Text),
    (500, Side::Client, Shape::Empty),
    (510, Side::Server, Shape::Empty),
    (520, Side::Server, Shape::Empty),
    (530, Side::Client, Shape::Options),
    (540, Side::Server, Shape::Empty),
    (550, Side::Client, Shape::Empty),
    (560, Side::Server, Shape::Empty),
];

/// Bytes offered to a reader.
#[derive(Clone, Debug)]
pub struct Input {
    pub side: Side,
    pub bytes: Vec<u8>,
}

pub fn other(side: Side) -> Side {
    match side {
        Side::Client => Side::Server,
        Side::Server => Side::Client,
    }
}

/// Every input for the readers: the sweep, then messages of all instructions
/// in turn, every second one damaged.
pub fn inputs() -> impl Iterator<Item = Input> {
    let mut rng = Rng::new(1);
    let random = (0..RANDOM_INPUTS).map(move |k| {
        let message = MESSAGES[k / 2 % MESSAGES.len()];
        let length = body_length(&mut rng);
        let sample = sample(&mut rng, message, length);
        if k % 2 == 0 {
            sample.into_input()
        } else {
            damage(&mut rng, sample)
        }
    });
    sweep::sweep().chain(random)
}

#[cfg(test)]
mod tests {
    use super::*;
    use crate::plain::{entry, read};

    #[test]
    fn the_table_is_that_of_the_reader() {
        for (instruction, side, shape) in MESSAGES {
            assert_eq!(entry(instruction), Some((side, shape)));
        }
    }

    #[test]
    fn enough_inputs_accepted_and_refused_with_each_number() {
        let mut seen = [0; 9];
        for input in inputs() {
            seen[usize::from(read(input.side, &input.bytes).err().unwrap_or(0))] += 1;
        }
        assert!(seen.iter().sum::<usize>() >= 200_000);
        assert!(seen.iter().all(|&n| n > 1_000), "{seen:?}");
    }
}
