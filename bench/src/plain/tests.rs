//! The worked examples of the documents, and the places of them that are easily got wrong.

mod cutting;
mod joining;
mod reading;
mod requests;
mod responses;
mod strings;
mod typed;
mod writing;

use super::Side::{Client, Server};
use super::*;

/// The bytes of a hex text with spaces.
fn hex(text: &str) -> Vec<u8> {
    let digits: Vec<u8> = text
        .chars()
        .filter(|c| !c.is_whitespace())
        .map(|c| c.to_digit(16).unwrap() as u8)
        .collect();
    digits.chunks(2).map(|pair| pair[0] * 16 + pair[1]).collect()
}

/// A message with this body, its length as it should be.
fn message(instruction: u32, body: &str) -> Vec<u8> {
    let body = hex(body);
    let mut bytes = instruction.to_be_bytes().to_vec();
    bytes.extend((body.len() as u32).to_be_bytes());
    bytes.extend(body);
    bytes
}

fn refused(side: Side, bytes: &[u8]) -> u8 {
    read(side, bytes).expect_err("accepted")
}

/// The refusal of a client's or a server's message with this body.
fn body_refused(instruction: u32, body: &str) -> u8 {
    let (side, _) = entry(instruction).unwrap();
    refused(side, &message(instruction, body))
}

fn accepted(instruction: u32, body: &str) -> bool {
    let (side, _) = entry(instruction).unwrap();
    let bytes = message(instruction, body);
    read(side, &bytes).is_ok_and(|m| m.instruction == instruction && m.count == bytes.len())
}

#[test]
fn head() {
    assert_eq!(refused(Client, &[]), 1);
    assert_eq!(refused(Client, &[0; 7]), 1);
    let start_up = hex("0000006E 00000000");
    let message = Message { instruction: 110, body: Body::Empty, count: 8 };
    assert_eq!(read(Client, &start_up), Ok(message));
    assert_eq!(refused(Server, &start_up), 3);
    assert_eq!(refused(Client, &hex("0000006E 00000001 78")), 7);
    assert_eq!(refused(Client, &hex("00000065 00000000")), 2);
    assert_eq!(refused(Server, &hex("00000168 00002801")), 4);
    assert_eq!(refused(Server, &hex("00000168 00002800")), 1);
}

#[test]
fn execute() {
    let bytes = hex("0000012C 00000007 00 00 00000001 31");
    let message =
        Message { instruction: 300, body: Body::Statement { format: 0, text: b"1" }, count: 15 };
    assert_eq!(read(Client, &bytes), Ok(message));
    assert_eq!(body_refused(300, "02 00 00000001 31"), 8);
    assert_eq!(body_refused(300, "00 01 00000001 31"), 6);
    assert_eq!(body_refused(300, "00 00 00000002 31"), 5);
}

#[test]
fn error_response_of_the_transcript() {
    let bytes = hex("00000064 0000000A 00000001 00 00000001 78");
    let body = Body::Coded { code: 1, text: b"x" };
    assert_eq!(read(Server, &bytes).unwrap().body, body);
}

#[test]
fn forty_six_instructions() {
    let known = (0..=u32::from(u16::MAX)).filter(|&i| entry(i).is_some());
    assert_eq!(known.count(), 46);
}
