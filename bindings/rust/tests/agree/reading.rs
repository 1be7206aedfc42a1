//! Reading Sedna messages: the answer, the count and every field.

use crate::lent::hex;
use crate::same::{same, side};
use crate::tally::Tally;
use bench::inputs::{inputs, MESSAGES};
use bench::plain;
use keddorimp::sedna::read;
use std::collections::BTreeSet;

pub fn run() -> Tally {
    let mut tally = Tally::new("reading");
    let mut instructions = BTreeSet::new();
    for input in inputs() {
        let ours = read(side(input.side), &input.bytes);
        let plain = plain::read(input.side, &input.bytes);
        assert!(
            same(&ours, &plain),
            "from the {:?}: {ours:?}, plain {plain:?}\n{}",
            input.side,
            hex(&input.bytes)
        );
        instructions.extend(plain.map(|message| message.instruction));
        tally.count(&plain);
    }
    assert!(instructions.into_iter().eq(MESSAGES.map(|(number, ..)| number)));
    tally.complete(&[1, 2, 3, 4, 5, 6, 7, 8])
}
