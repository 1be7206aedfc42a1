//! Responses, answered and told as by the library.

use crate::library::basex::{ITEM, RESPONSE};
use bench::plain::basex as plain;

#[inline(never)]
pub fn read_response(
    kind: u8,
    bytes: &[u8],
    out: &mut [u8],
    told: &mut [u64; RESPONSE],
) -> Result<usize, u8> {
    let read = plain::read_response(kind, bytes, out)?;
    let n = |text: &[u8]| text.len() as u64;
    let [first, second] = read.texts.map(n);
    let (listed, error) = (n(read.listed), n(read.error));
    let (items, status) = (read.items as u64, read.status.into());
    *told = [first, second, items, listed, status, error];
    Ok(read.read)
}

/// 0 for the 00 behind the last.
#[inline(never)]
pub fn item(kind: u8, bytes: &[u8], at: usize, told: &mut [u64; ITEM]) -> Result<usize, u8> {
    let Some(item) = plain::item(kind, bytes, at)? else { return Ok(0) };
    *told = [item.id.into(), item.uri.unwrap_or(0) as u64, item.text as u64];
    Ok(item.next - at)
}

#[inline(never)]
pub fn write_item(
    out: &mut [u8],
    at: usize,
    kind: u8,
    id: u8,
    uri: &[u8],
    text: &[u8],
) -> Result<usize, u8> {
    plain::write_item(out, at, kind, id, uri, text)
}

#[inline(never)]
pub fn write_end(
    out: &mut [u8],
    at: usize,
    kind: u8,
    texts: [&[u8]; 2],
    status: u8,
    error: &[u8],
) -> Result<usize, u8> {
    plain::write_end(out, at, kind, texts, status, error)
}
