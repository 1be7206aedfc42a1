//! BaseX strings, in both ways.

use super::super::basex::{bytes, runs, Place};
use super::super::refusal::{BAD_ESCAPE, MORE_NEEDED, NO_ROOM};
use super::*;

/// The string of a text, which both write the same.
fn spelled(text: &[u8]) -> Vec<u8> {
    let mut out = vec![0xA5; bytes::string_len(text)];
    let mut other = out.clone();
    assert_eq!(bytes::write_string(&mut out, 0, text), Ok(out.len()));
    assert_eq!(runs::string_len(text), out.len());
    assert_eq!(runs::write_string(&mut other, 0, text), Ok(out.len()));
    assert_eq!(out, other);
    out
}

/// What both answer, and the text.
fn decoded(string: &[u8], at: usize, room: usize) -> Result<(Place, Vec<u8>), u8> {
    let mut out = vec![0xA5; room];
    let mut other = out.clone();
    let answer = bytes::decode(string, at, &mut out, 0);
    assert_eq!(runs::decode(string, at, &mut other, 0), answer);
    assert_eq!(out, other);
    if answer.is_err() {
        assert_eq!(out, vec![0xA5; room]);
    }
    answer.map(|place| (place, out[..place.len].to_vec()))
}

#[test]
fn worked_examples() {
    assert_eq!(spelled(&hex("61 00 FF")), hex("61 FF 00 FF FF 00"));
    assert_eq!(spelled(b""), [0]);
    assert_eq!(decoded(&hex("FF 41 00"), 0, 9), Err(BAD_ESCAPE));
    assert_eq!(decoded(&hex("FF"), 0, 9), Err(MORE_NEEDED));
    assert_eq!(decoded(&hex("61 62"), 0, 9), Err(MORE_NEEDED));
    let place = Place { len: 3, next: 7 };
    assert_eq!(decoded(&hex("00 61 FF 00 FF FF 00 41"), 1, 9), Ok((place, hex("61 00 FF"))));
}

#[test]
fn room() {
    let string = hex("61 FF 00 62 00");
    assert_eq!(decoded(&string, 0, 2), Err(NO_ROOM));
    assert!(decoded(&string, 0, 3).is_ok());
    assert_eq!(decoded(&string, 0, 0), Err(NO_ROOM));
    assert_eq!(decoded(&string, 5, 0), Err(MORE_NEEDED));
    assert_eq!(decoded(&string, usize::MAX, 0), Err(MORE_NEEDED));
    assert_eq!(bytes::decode(&string, 0, &mut [0; 4], 5), Err(NO_ROOM));
    assert_eq!(runs::decode(&string, 0, &mut [0; 4], 5), Err(NO_ROOM));
    for (at, answer) in [(0, Ok(4)), (1, Ok(4)), (2, Err(NO_ROOM)), (usize::MAX, Err(NO_ROOM))] {
        let mut out = [0xA5; 5];
        assert_eq!(bytes::write_string(&mut out, at, &[0x61, 0]), answer);
        assert_eq!(runs::write_string(&mut [0xA5; 5], at, &[0x61, 0]), answer);
        assert_eq!(answer.is_err(), out == [0xA5; 5]);
    }
}

#[test]
fn every_length_and_place() {
    for length in 0..=80 {
        let plain: Vec<_> = (1..=length as u8).collect();
        for place in 0..=length {
            for byte in [0, 0xFF] {
                let mut text = plain.clone();
                text[place..].iter_mut().take(1).for_each(|at| *at = byte);
                let string = spelled(&text);
                let place = Place { len: length, next: string.len() };
                assert_eq!(decoded(&string, 0, length), Ok((place, text)));
            }
        }
    }
}
