//! Writing: order, room, and the limit on a body.

use super::super::refusal::{NOT_ALLOWED, NO_ENCODING, NO_ROOM, UNKNOWN};
use super::*;

const TOO_LONG: [u8; BODY_MAX + 1] = [b'x'; BODY_MAX + 1];

/// The answer, and whether the output changed.
fn written(room: usize, instruction: u32, value: Value) -> (Result<usize, u8>, bool) {
    let mut out = vec![0xA5; room];
    let answer = write(&mut out, instruction, &value);
    (answer, out.iter().any(|&b| b != 0xA5))
}

fn refusal(room: usize, instruction: u32, value: Value) -> u8 {
    let (answer, changed) = written(room, instruction, value);
    assert!(!changed);
    answer.expect_err("accepted")
}

#[test]
fn order() {
    let item = |class, part| Value::Item { class, kind: 0, url: None, part };
    assert_eq!(refusal(0, 999, item(0, &TOO_LONG)), UNKNOWN);
    assert_eq!(refusal(0, 355, item(0, &TOO_LONG)), NOT_ALLOWED);
    assert_eq!(refusal(0, 355, item(1, &TOO_LONG)), NO_ENCODING);
    assert_eq!(refusal(15, 355, item(1, b"")), NO_ROOM);
    assert_eq!(written(16, 355, item(1, b"")).0, Ok(16));
}

#[test]
fn both_sides_are_written() {
    assert_eq!(written(8, 110, Value::Empty).0, Ok(8));
    assert_eq!(written(8, 140, Value::Empty).0, Ok(8));
}

#[test]
fn exact_fit_and_bytes_behind() {
    let mut out = [0xA5; 20];
    let text = Value::Statement { format: 0, text: b"1" };
    assert_eq!(write(&mut out[..14], 300, &text), Err(NO_ROOM));
    assert_eq!(out, [0xA5; 20]);
    assert_eq!(write(&mut out, 300, &text), Ok(15));
    assert_eq!(out[..15], hex("0000012C 00000007 00 00 00000001 31"));
    assert_eq!(out[15..], [0xA5; 5]);
}

#[test]
fn url_or_none() {
    let item = |url| Value::Item { class: 3, kind: 10, url, part: b"p" };
    assert_eq!(written(99, 355, item(Some(b"u"))).0, Ok(23));
    assert_eq!(written(99, 355, item(Some(b""))).0, Ok(22));
    assert_eq!(written(99, 355, item(None)).0, Ok(17));
}

#[test]
fn the_limit_is_on_the_body() {
    let statement = |n| Value::Statement { format: 1, text: &TOO_LONG[..n] };
    assert_eq!(written(20_000, 300, statement(10_234)).0, Ok(10_248));
    assert_eq!(refusal(20_000, 300, statement(10_235)), NO_ENCODING);
    assert_eq!(refusal(20_000, 300, statement(10_240)), NO_ENCODING);
}

#[test]
fn option_lists_that_disagree() {
    let options = |lengths, values| Value::Options { ids: &[7, 8], lengths, values };
    assert_eq!(written(99, 530, options(&[1, 2], b"abc")).0, Ok(29));
    assert_eq!(refusal(99, 530, options(&[3], b"abc")), NOT_ALLOWED);
    assert_eq!(refusal(99, 530, options(&[1, 1], b"abc")), NOT_ALLOWED);
    assert_eq!(refusal(99, 530, options(&[usize::MAX, 4], b"abc")), NOT_ALLOWED);
}

#[test]
fn a_body_of_another_shape() {
    assert_eq!(refusal(99, 110, Value::Text(b"")), NOT_ALLOWED);
    assert_eq!(refusal(99, 360, Value::Empty), NOT_ALLOWED);
    assert_eq!(refusal(99, 0, Value::Text(&TOO_LONG)), UNKNOWN);
}

#[test]
fn written_bytes_read_as_the_same_message() {
    let mut out = [0; 64];
    let value = Value::Session { major: 4, minor: 0, user: b"field", database: b"maps" };
    let count = write(&mut out, 120, &value).unwrap();
    assert_eq!(out[..count], message(120, "0400 00 00000005 6669656C64 00 00000004 6D617073"));
    let body = Body::Session { major: 4, minor: 0, user: b"field", database: b"maps" };
    assert_eq!(read(Client, &out).unwrap(), Message { instruction: 120, body, count });
}
