//! BaseX responses: their forms, where each refusal is due, and writing.

use super::super::basex::kind::{COMMAND, FULL, RESULTS};
use super::super::basex::{item, read_response, write_end, write_item, Item};
use super::super::refusal::{BAD_ESCAPE, MORE_NEEDED, NOT_ALLOWED, NO_ROOM, UNKNOWN};
use super::*;

const QUERY: u8 = 0;
const ADD: u8 = 9;

/// Items, status and bytes read, and all that is stored.
fn told(kind: u8, bytes: &str) -> Result<(usize, u8, usize, Vec<u8>), u8> {
    let bytes = hex(bytes);
    let mut out = vec![0xA5; bytes.len()];
    let answer = read_response(kind, &bytes, &mut out);
    let told = answer.map(|r| {
        let [first, second] = r.texts;
        (r.items, r.status, r.read, [first, second, r.listed, r.error].concat())
    });
    match &told {
        Ok((.., stored)) => {
            assert!(out.starts_with(stored));
            let mut exact = vec![0xA5; stored.len()];
            assert!(read_response(kind, &bytes, &mut exact).is_ok() && exact == *stored);
            exact.pop();
            let short = stored.len() > exact.len();
            assert!(!short || read_response(kind, &bytes, &mut exact) == Err(NO_ROOM));
        }
        Err(_) => assert_eq!(out, vec![0xA5; bytes.len()]),
    }
    told
}

#[test]
fn forms() {
    assert_eq!(told(COMMAND, "31 00 32 00 00"), Ok((0, 0, 5, hex("31 32"))));
    assert_eq!(told(0xFE, "31 00 32 00 01 33 00"), Ok((0, 1, 5, hex("31 32"))));
    assert_eq!(told(ADD, "31 00 01 32 00"), Ok((0, 1, 3, hex("31"))));
    assert_eq!(told(QUERY, "00 00"), Ok((0, 0, 2, vec![])));
    assert_eq!(told(QUERY, "31 00 01 FF 00 00"), Ok((0, 1, 6, hex("31 00"))));
    assert_eq!(told(RESULTS, "00 00"), Ok((0, 0, 2, vec![])));
    assert_eq!(told(RESULTS, "34 31 00 0C 32 00 00 01 33 00"), Ok((2, 1, 10, hex("31 32 33"))));
    assert_eq!(told(FULL, "34 31 00 0C 32 00 33 00 00 00"), Ok((2, 0, 10, hex("31 32 33"))));
}

#[test]
fn refusals() {
    assert_eq!(told(0xFF, ""), Err(MORE_NEEDED));
    assert_eq!(told(0xFF, "00"), Err(UNKNOWN));
    assert_eq!(told(QUERY, "00 02"), Err(NOT_ALLOWED));
    assert_eq!(told(QUERY, "00 01"), Err(MORE_NEEDED));
    assert_eq!(told(QUERY, "FF 41"), Err(BAD_ESCAPE));
    assert_eq!(told(QUERY, "FF"), Err(MORE_NEEDED));
    assert_eq!(told(COMMAND, "00 02"), Err(MORE_NEEDED));
    assert_eq!(told(RESULTS, "00"), Err(MORE_NEEDED));
    assert_eq!(told(RESULTS, "00 02"), Err(NOT_ALLOWED));
    for (id, allowed) in [(1, false), (6, false), (7, true), (15, true), (16, false)] {
        assert_eq!(told(RESULTS, &format!("{id:02X} 00 00 00")).is_ok(), allowed);
    }
    for (id, allowed) in [(31, false), (32, true), (83, true), (84, false), (255, false)] {
        assert_eq!(told(RESULTS, &format!("{id:02X} 00 00 00")).is_ok(), allowed);
    }
}

#[test]
fn items() {
    let bytes = hex("34 31 00 52 75 00 32 33 00 00 00");
    let first = Item { id: 52, uri: None, text: 1, next: 3 };
    assert_eq!(item(FULL, &bytes, 0), Ok(Some(first)));
    assert_eq!(item(FULL, &bytes, 3), Ok(Some(Item { id: 82, uri: Some(1), text: 2, next: 9 })));
    assert_eq!(item(RESULTS, &bytes, 3), Ok(Some(Item { id: 82, uri: None, text: 1, next: 6 })));
    assert_eq!(item(FULL, &bytes, 9), Ok(None));
    assert_eq!(item(FULL, &bytes, 4), Err(NOT_ALLOWED));
    assert_eq!(item(FULL, &bytes, 11), Err(MORE_NEEDED));
    assert_eq!(item(FULL, &bytes, usize::MAX), Err(MORE_NEEDED));
    assert_eq!(item(0x01, &bytes, 10), Err(UNKNOWN));
    assert_eq!(item(QUERY, &bytes, 10), Err(NOT_ALLOWED));
    assert_eq!(item(0x01, &bytes, 11), Err(MORE_NEEDED));
    assert_eq!(item(QUERY, &bytes, 11), Err(MORE_NEEDED));
}

#[test]
fn writing_items() {
    let mut out = [0xA5; 6];
    let mut write = |at, kind, id, uri: &[u8]| write_item(&mut out, at, kind, id, uri, b"t");
    assert_eq!(write(0, 0x01, 0, b"u"), Err(UNKNOWN));
    assert_eq!(write(0, QUERY, 52, b""), Err(NOT_ALLOWED));
    assert_eq!(write(0, RESULTS, 12, b"u"), Err(NOT_ALLOWED));
    assert_eq!(write(0, FULL, 13, b"u"), Err(NOT_ALLOWED));
    assert_eq!(write(9, FULL, 16, b""), Err(NOT_ALLOWED));
    assert_eq!(write(2, FULL, 12, b"u"), Err(NO_ROOM));
    assert_eq!(write(usize::MAX, FULL, 12, b"u"), Err(NO_ROOM));
    assert_eq!(write(1, FULL, 12, b"u"), Ok(5));
    assert_eq!(out[..], hex("A5 0C 75 00 74 00"));
}

#[test]
fn writing_ends() {
    let mut out = [0xA5; 6];
    let mut write = |at, kind, first: &[u8], second: &[u8], status, error: &[u8]| {
        write_end(&mut out, at, kind, [first, second], status, error)
    };
    assert_eq!(write(0, 0x01, b"1", b"2", 2, b"3"), Err(UNKNOWN));
    assert_eq!(write(9, RESULTS, b"1", b"", 0, b""), Err(NOT_ALLOWED));
    assert_eq!(write(9, QUERY, b"1", b"2", 0, b""), Err(NOT_ALLOWED));
    assert_eq!(write(9, QUERY, b"1", b"", 2, b""), Err(NOT_ALLOWED));
    assert_eq!(write(9, QUERY, b"1", b"", 0, b"3"), Err(NOT_ALLOWED));
    assert_eq!(write(9, ADD, b"1", b"", 1, b"3"), Err(NOT_ALLOWED));
    assert_eq!(write(2, COMMAND, b"1", b"2", 1, b""), Err(NO_ROOM));
    assert_eq!(write(2, RESULTS, b"", b"", 1, b"3"), Ok(4));
    assert_eq!(write(0, ADD, b"", b"", 0, b""), Ok(2));
    assert_eq!(out[..], hex("00 00 00 01 33 00"));
}
