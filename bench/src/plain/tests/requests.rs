//! BaseX requests: first bytes, where each refusal is due, and that 10 comes last.

use super::super::basex::kind::{strings, COMMAND};
use super::super::basex::{read_request, write_request};
use super::super::refusal::{BAD_ESCAPE, NO_ENCODING, NO_ROOM, UNKNOWN};
use super::super::refusal::{MORE_NEEDED, NOT_ALLOWED};
use super::*;

/// Kind, texts and bytes read, with so much room.
type Told = (u8, [Vec<u8>; 4], usize);

fn told(bytes: &str, room: usize) -> Result<Told, u8> {
    let mut out = vec![0xA5; room];
    let answer = read_request(&hex(bytes), &mut out);
    let told = answer.map(|r| (r.kind, r.texts.map(<[u8]>::to_vec), r.read));
    if told.is_err() {
        assert_eq!(out, vec![0xA5; room]);
    }
    told
}

fn texts<const N: usize>(given: [&str; N]) -> [Vec<u8>; 4] {
    let mut texts = [const { vec![] }; 4];
    for (text, given) in texts.iter_mut().zip(given) {
        *text = hex(given);
    }
    texts
}

fn written(kind: u8, given: [&[u8]; 4], room: usize) -> Result<Vec<u8>, u8> {
    let mut out = vec![0xA5; room];
    let answer = write_request(&mut out, kind, given);
    if answer.is_err() {
        assert_eq!(out, vec![0xA5; room]);
    }
    answer.map(|count| out[..count].to_vec())
}

#[test]
fn first_bytes() {
    let unknown = (0..=0xFF).filter(|&byte| strings(byte).is_none());
    assert!(unknown.eq([0x01, 0x0A, 0x0B].into_iter().chain(0x0F..=0x1D).chain([0xFF])));
    assert_eq!(told("", 9), Err(MORE_NEEDED));
    assert_eq!(told("FF FF 00", 9), Err(UNKNOWN));
    assert_eq!(told("01", 9), Err(UNKNOWN));
}

#[test]
fn kinds() {
    assert_eq!(told("00 31 00 41", 9), Ok((0, texts(["31"]), 3)));
    assert_eq!(told("7A FF FF 00", 9), Ok((COMMAND, texts(["7A FF"]), 4)));
    assert_eq!(told("03 31 00 00 FF 00 00 33 00", 3), Ok((3, texts(["31", "", "00", "33"]), 9)));
    assert_eq!(told("09 31 00 32 00", 2), Ok((9, texts(["31", "32"]), 5)));
    assert_eq!(told("0E 31 00 32 00 33 00", 3), Ok((14, texts(["31", "32", "33"]), 7)));
}

#[test]
fn order_of_reading() {
    assert_eq!(told("09 31 00 FF 41", 0), Err(BAD_ESCAPE));
    assert_eq!(told("09 31 00 FF", 0), Err(MORE_NEEDED));
    assert_eq!(told("09 31 00 32", 0), Err(MORE_NEEDED));
    assert_eq!(told("09 31 00 32 00", 1), Err(NO_ROOM));
    assert_eq!(told("09 00 00", 0), Ok((9, texts([]), 3)));
}

#[test]
fn order_of_writing() {
    let none = b"";
    assert_eq!(written(0x01, [b"1", b"2", none, none], 0), Err(UNKNOWN));
    assert_eq!(written(COMMAND, [none, b"2", none, none], 0), Err(NOT_ALLOWED));
    assert_eq!(written(COMMAND, [none; 4], 0), Err(NO_ENCODING));
    assert_eq!(written(COMMAND, [b"\x1F", none, none, none], 0), Err(NO_ENCODING));
    assert_eq!(written(0xFE, [b"\xFF", none, none, none], 0), Err(NO_ENCODING));
    assert_eq!(written(COMMAND, [b"z", none, none, none], 1), Err(NO_ROOM));
    assert_eq!(written(0xFE, [b"z", none, none, none], 2), Ok(hex("7A 00")));
    assert_eq!(written(0x08, [b"\xFF", none, none, none], 4), Err(NO_ROOM));
    assert_eq!(written(0x08, [b"\xFF", none, none, none], 9), Ok(hex("08 FF FF 00 00")));
}
