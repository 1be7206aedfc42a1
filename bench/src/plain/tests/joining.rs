//! Joining: order, room, what spoils a gathering, and what is handed over.

use super::super::refusal::{BUFFER_OVERRUN, OUT_OF_ORDER};
use super::*;

const EXECUTE: &str = "01 00 00000002 6162";
const LONG: &str = "00 00 00000002 6162";
const PART: &str = "00 00000002 6364";
const EMPTY_PART: &str = "00 00000000";
const START: &str = "03 0A 01 00 00000001 75 00 00000002 6162";

/// A gathering beside a buffer of its own.
struct Gatherer(Gathering, Vec<u8>);

impl Gatherer {
    fn open(what: What, room: usize) -> Self {
        Self(Gathering::open(what), vec![0xA5; room])
    }

    /// Joins a message with this body; the buffer is changed by accepted ones alone.
    fn join(&mut self, instruction: u32, body: &str) -> Result<Gathered, u8> {
        let bytes = message(instruction, body);
        let (side, _) = entry(instruction).unwrap();
        let before = self.clone_parts();
        let answer = self.0.join(&mut self.1, &read(side, &bytes).unwrap());
        if answer.is_err() {
            assert_eq!(before.1, self.1);
            assert_eq!(before.0, Gathering { spoilt: before.0.spoilt, ..self.0 });
        }
        answer
    }

    fn clone_parts(&self) -> (Gathering, Vec<u8>) {
        (self.0, self.1.clone())
    }
}

#[test]
fn a_statement() {
    let mut g = Gatherer::open(What::Statement, 4);
    assert_eq!(g.join(302, ""), Err(OUT_OF_ORDER));
    assert_eq!(g.join(301, LONG), Ok(Gathered::Part));
    assert_eq!(g.join(300, EXECUTE), Err(OUT_OF_ORDER));
    assert_eq!(g.join(301, "01 00 00000000"), Ok(Gathered::Part));
    assert_eq!(g.join(360, PART), Err(OUT_OF_ORDER));
    assert_eq!(g.join(301, "01 00 00000002 6364"), Ok(Gathered::Part));
    assert_eq!(g.join(302, ""), Ok(Gathered::Statement { len: 4, format: 0 }));
    assert_eq!(g.1, b"abcd");
    assert_eq!(g.0, Gathering::CLOSED);
    assert_eq!(g.join(301, LONG), Err(OUT_OF_ORDER));
    g.0 = Gathering::open(What::Statement);
    assert_eq!(g.join(300, EXECUTE), Ok(Gathered::Statement { len: 2, format: 1 }));
}

#[test]
fn an_item() {
    let mut g = Gatherer::open(What::Item, 4);
    assert_eq!(g.join(370, ""), Err(OUT_OF_ORDER));
    assert_eq!(g.join(355, START), Err(OUT_OF_ORDER));
    assert_eq!(g.join(360, EMPTY_PART), Ok(Gathered::Part));
    assert_eq!(g.join(360, PART), Ok(Gathered::Part));
    assert_eq!(g.join(375, ""), Ok(Gathered::Item { len: 2 }));
    assert_eq!(g.1[..2], *b"cd");
}

#[test]
fn a_typed_item() {
    let mut g = Gatherer::open(What::TypedItem, 4);
    assert_eq!(g.join(360, PART), Err(OUT_OF_ORDER));
    assert_eq!(g.join(370, ""), Err(OUT_OF_ORDER));
    assert_eq!(g.join(355, START), Ok(Gathered::Part));
    assert_eq!(g.join(355, START), Err(OUT_OF_ORDER));
    assert_eq!(g.join(360, PART), Ok(Gathered::Part));
    assert_eq!(g.join(370, ""), Ok(Gathered::TypedItem { len: 4, class: 3, kind: 10 }));
    assert_eq!(g.1, b"abcd");
}

#[test]
fn spoilt() {
    let mut g = Gatherer::open(What::TypedItem, 3);
    assert_eq!(g.join(355, START), Ok(Gathered::Part));
    assert_eq!(g.join(360, PART), Err(BUFFER_OVERRUN));
    // A shorter part would fit, and the end too; another kind is still of another kind.
    assert_eq!(g.join(360, EMPTY_PART), Err(BUFFER_OVERRUN));
    assert_eq!(g.join(355, START), Err(BUFFER_OVERRUN));
    assert_eq!(g.join(370, ""), Err(BUFFER_OVERRUN));
    assert_eq!(g.join(301, LONG), Err(OUT_OF_ORDER));
    g.0 = Gathering::open(What::Item);
    assert_eq!(g.join(360, PART), Ok(Gathered::Part));
}

#[test]
fn nothing_is_open() {
    let mut g = Gatherer::open(What::Nothing, 4);
    for (instruction, body) in [(300, EXECUTE), (302, ""), (360, PART), (355, START), (370, "")] {
        assert_eq!(g.join(instruction, body), Err(OUT_OF_ORDER));
    }
}
