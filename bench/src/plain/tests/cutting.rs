//! Cutting: how many parts, what is in them, and the order of the refusals.

use super::super::refusal::{NOT_ALLOWED, NO_ENCODING, NO_ROOM, NO_SUCH_PART};
use super::*;

fn text(bytes: usize) -> Vec<u8> {
    (0..bytes).map(|at| (at % 251) as u8).collect()
}

/// The instructions and texts of all parts, and that there is none behind them.
fn parts(write: impl Fn(&mut [u8], usize) -> Result<usize, u8>) -> Vec<(u32, Vec<u8>)> {
    let mut parts = Vec::new();
    let mut out = [0; HEAD + BODY_MAX];
    loop {
        let count = match write(&mut out, parts.len()) {
            Ok(count) => count,
            Err(number) => {
                assert_eq!(number, NO_SUCH_PART);
                return parts;
            }
        };
        let side = entry(u32::from_be_bytes(out[..4].try_into().unwrap())).unwrap().0;
        let message = read(side, &out[..count]).unwrap();
        let text = match message.body {
            Body::Text(t) | Body::Statement { text: t, .. } | Body::Item { part: t, .. } => t,
            _ => &[],
        };
        parts.push((message.instruction, text.to_vec()));
    }
}

/// Instructions and lengths of the parts, whose texts make up `text`.
fn lengths(text: &[u8], parts: &[(u32, Vec<u8>)]) -> Vec<(u32, usize)> {
    assert!(parts.iter().flat_map(|(_, part)| part).eq(text));
    parts.iter().map(|(instruction, part)| (*instruction, part.len())).collect()
}

#[test]
fn statements() {
    let cut = |bytes| {
        let text = text(bytes);
        let all = parts(|out, k| write_statement_part(out, 1, &text, k));
        assert_eq!(all.len(), statement_parts(bytes));
        lengths(&text, &all)
    };
    assert_eq!(cut(0), [(300, 0)]);
    assert_eq!(cut(10_234), [(300, 10_234)]);
    assert_eq!(cut(10_235), [(301, 10_234), (301, 1), (302, 0)]);
    assert_eq!(cut(20_468), [(301, 10_234), (301, 10_234), (302, 0)]);
    assert_eq!(cut(20_469), [(301, 10_234), (301, 10_234), (301, 1), (302, 0)]);
}

#[test]
fn items() {
    let cut = |bytes| {
        let text = text(bytes);
        let all = parts(|out, k| write_item_part(out, &text, k));
        assert_eq!(all.len(), item_parts(bytes));
        lengths(&text, &all)
    };
    assert_eq!(cut(0), [(360, 0)]);
    assert_eq!(cut(10_235), [(360, 10_235)]);
    assert_eq!(cut(10_236), [(360, 10_235), (360, 1)]);
    assert_eq!(cut(20_470), [(360, 10_235), (360, 10_235)]);
}

#[test]
fn typed_items() {
    let cut = |bytes, url: Option<usize>| {
        let text = text(bytes);
        let bytes_of_url = url.map(|n| vec![b'u'; n]);
        let all =
            parts(|out, k| write_typed_item_part(out, [3, 10], bytes_of_url.as_deref(), &text, k));
        assert_eq!(Ok(all.len()), typed_item_parts(bytes, url));
        lengths(&text, &all)
    };
    assert_eq!(cut(0, None), [(355, 0)]);
    assert_eq!(cut(10_232, None), [(355, 10_232)]);
    assert_eq!(cut(10_233, None), [(355, 10_232), (360, 1)]);
    assert_eq!(cut(10_227, Some(0)), [(355, 10_227)]);
    assert_eq!(cut(10_228, Some(0)), [(355, 10_227), (360, 1)]);
    assert_eq!(cut(10_236, Some(10_227)), [(355, 0), (360, 10_235), (360, 1)]);
}

#[test]
fn order() {
    let mut out = [0xA5; 64];
    let (long, none) = (text(20_469), vec![b'u'; 10_228]);
    assert_eq!(write_statement_part(&mut [], 2, &long, 9), Err(NOT_ALLOWED));
    assert_eq!(write_statement_part(&mut [], 0, &long, 9), Err(NO_SUCH_PART));
    assert_eq!(write_statement_part(&mut [], 0, &long, usize::MAX), Err(NO_SUCH_PART));
    assert_eq!(write_statement_part(&mut out[..14], 0, &long, 2), Err(NO_ROOM));
    assert_eq!(out, [0xA5; 64]);
    assert_eq!(write_statement_part(&mut out, 0, &long, 2), Ok(15));
    assert_eq!(write_statement_part(&mut out[..7], 0, &long, 3), Err(NO_ROOM));
    let typed = |marks, url, k| write_typed_item_part(&mut [], marks, url, &long, k);
    assert_eq!(typed([9, 0], Some(&none[..]), 9), Err(NOT_ALLOWED));
    assert_eq!(typed([1, 7], None, 9), Err(NOT_ALLOWED));
    assert_eq!(typed([1, 0], Some(&none[..]), 9), Err(NO_ENCODING));
    assert_eq!(typed([1, 0], None, 3), Err(NO_SUCH_PART));
    assert_eq!(typed([1, 0], None, 2), Err(NO_ROOM));
    assert_eq!(typed_item_parts(0, Some(10_228)), Err(NO_ENCODING));
}
