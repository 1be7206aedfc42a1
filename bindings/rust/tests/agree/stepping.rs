//! Session steps: random conversations, and each message at the end of every way into every phase.

use crate::lent::hex;
use crate::same::{same, side};
use crate::tally::Tally;
use bench::inputs::{conversations, each_message, ways, Input};
use bench::plain;
use keddorimp::sedna::{Instruction, Session};

pub fn run() -> Tally {
    let mut tally = Tally::new("session steps");
    for conversation in conversations() {
        follow(&conversation, &mut tally);
    }
    let messages = each_message();
    for way in ways() {
        let both = follow(&way, &mut tally);
        for message in &messages {
            both.clone().offer(message, &mut tally);
        }
    }
    tally.complete(&[1, 2, 3, 4, 5, 6, 7, 8, 9])
}

fn follow(offers: &[Input], tally: &mut Tally) -> Both {
    let mut both = Both { ours: Session::new(), plain: plain::Session::FRESH };
    assert_eq!(both.ours.turn(), both.plain.turn().map(side));
    for input in offers {
        both.offer(input, tally);
    }
    both
}

/// One session, as each of the two keeps it.
#[derive(Clone)]
struct Both {
    ours: Session,
    plain: plain::Session,
}

impl Both {
    fn offer(&mut self, input: &Input, tally: &mut Tally) {
        let before = self.clone();
        let ours = self.ours.step(side(input.side), &input.bytes);
        let plain = self.plain.step(input.side, &input.bytes);
        let alike = same(&ours, &plain)
            && self.ours.closed() == self.plain.closed()
            && self.ours.turn() == self.plain.turn().map(side);
        let kept = match ours {
            Ok((message, _)) => {
                // Who has the turn goes on, or an error comes.
                message.instruction == Instruction::ERROR_RESPONSE
                    || before.ours.turn() == Some(side(input.side))
            }
            Err(_) => self.ours == before.ours,
        };
        assert!(
            alike && kept,
            "from the {:?} in {:?}, now {:?}: {ours:?}, plain {plain:?}\n{}",
            input.side,
            before.plain,
            self.ours,
            hex(&input.bytes)
        );
        tally.count(&plain);
    }
}
