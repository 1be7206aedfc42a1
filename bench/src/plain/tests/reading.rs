//! Reading: order, edges, and where each refusal is due.

use super::*;

#[test]
fn seven_bytes_of_an_unknown_instruction() {
    assert_eq!(refused(Client, &hex("00000065 000000")), 1);
}

#[test]
fn r03_head_judged_without_the_body() {
    assert_eq!(refused(Client, &hex("00000065 FFFFFFFF")), 2);
    assert_eq!(refused(Client, &hex("00000168 FFFFFFFF")), 3);
    assert_eq!(refused(Server, &hex("00000168 FFFFFFFF")), 4);
    assert_eq!(refused(Client, &hex("00000065 00000005")), 2);
    assert_eq!(refused(Client, &hex("00000168 00000005")), 3);
}

#[test]
fn no_early_7() {
    assert_eq!(refused(Client, &hex("0000006E 00000001")), 1);
    assert_eq!(refused(Client, &hex("0000006E 00000001 00")), 7);
}

#[test]
fn bytes_behind_the_message() {
    let bytes = hex("0000006E 00000000 FFFF");
    assert_eq!(read(Client, &bytes).unwrap().count, 8);
}

#[test]
fn r07_cut_ints_and_strings() {
    for body in ["", "01", "010203", "01020304", "01020304 00", "01020304 00 000000"] {
        assert_eq!(body_refused(100, body), 5, "{body}");
    }
    assert_eq!(body_refused(100, "01020304 01"), 6);
    assert_eq!(body_refused(130, "01 0000"), 6);
    assert_eq!(body_refused(130, "00 00000002 61"), 5);
    assert_eq!(body_refused(130, "00 00000001 61 62"), 7);
}

#[test]
fn a_string_ends_inside_the_body() {
    let mut bytes = message(130, "00 00000009 61");
    bytes.extend(message(110, ""));
    assert_eq!(refused(Client, &bytes), 5);
    assert_eq!(body_refused(130, "00 FFFFFFFF 61"), 5);
}

#[test]
fn r10_version() {
    assert_eq!(body_refused(120, ""), 5);
    assert_eq!(body_refused(120, "09"), 5);
    for body in ["0900", "0101", "0000", "0500", "0001"] {
        assert_eq!(body_refused(120, body), 8, "{body}");
    }
    for major in 1..=4 {
        assert_eq!(body_refused(120, &format!("0{major}00")), 5);
        let names = "00 00000001 75 00 00000000";
        assert!(accepted(120, &format!("0{major}00 {names}")));
    }
}

#[test]
fn item_start_byte_by_byte() {
    for (body, number) in [
        ("", 5),
        ("09", 8),
        ("00", 8),
        ("01", 5),
        ("0107", 8),
        ("010A", 5),
        ("010A02", 8),
        ("010A00", 5),
        ("010A0001", 6),
        ("010A01 00 00000000", 5),
    ] {
        assert_eq!(body_refused(355, body), number, "{body}");
    }
}

#[test]
fn class_and_type_apart() {
    for class in 0..=255u8 {
        for kind in 0..=255u8 {
            let body = format!("{class:02X}{kind:02X}00 00 00000000");
            let kinds = (0..=6).chain(10..=32).chain(41..=61);
            let allowed = (1..=8).contains(&class) && kinds.into_iter().any(|k| k == kind);
            assert_eq!(accepted(355, &body), allowed, "{body}");
        }
    }
}

#[test]
fn empty_url_is_not_none() {
    let url = |body| match read(Server, &message(355, body)).unwrap().body {
        Body::Item { url, .. } => url.map(<[u8]>::len),
        _ => unreachable!(),
    };
    assert_eq!(url("020000 00 00000001 61"), None);
    assert_eq!(url("020001 00 00000000 00 00000001 61"), Some(0));
}

#[test]
fn set_options() {
    assert!(accepted(530, ""));
    assert_eq!(body_refused(530, "00"), 5);
    assert_eq!(body_refused(530, "00000001 00 00000000 000000"), 5);
    assert_eq!(body_refused(530, "00000001 00 00000000 00000000"), 5);
    assert_eq!(body_refused(530, "00000001 00 00000000 00000001 02"), 6);
    let bytes = message(530, "FFFFFFFF 00 00000001 61 FFFFFFFF 00 00000000");
    let Body::Options(pairs) = read(Client, &bytes).unwrap().body else { unreachable!() };
    assert_eq!(pairs.count(), 2);
    assert_eq!(pairs.region(), &bytes[8..]);
    let all: Vec<_> = pairs.iter().collect();
    assert_eq!(all, [(u32::MAX, &b"a"[..]), (u32::MAX, &b""[..])]);
}

#[test]
fn empty_texts() {
    assert_eq!(body_refused(300, ""), 5);
    assert!(accepted(300, "01 00 00000000"));
    assert!(accepted(130, "00 00000000"));
    assert!(accepted(120, "0400 00 00000000 00 00000000"));
}

#[test]
fn r17_codes() {
    for instruction in [100, 400] {
        let bytes = message(instruction, "FFFFFFFF 00 00000000");
        let (side, _) = entry(instruction).unwrap();
        let body = Body::Coded { code: u32::MAX, text: b"" };
        assert_eq!(read(side, &bytes).unwrap().body, body);
    }
    assert_eq!(body_refused(400, ""), 5);
}
