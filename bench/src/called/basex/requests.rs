//! Requests, answered and told as by the library.

use crate::library::basex::REQUEST;
use bench::plain::basex as plain;

#[inline(never)]
pub fn read_request(bytes: &[u8], out: &mut [u8], told: &mut [u64; REQUEST]) -> Result<usize, u8> {
    let plain::Request { kind, texts, read } = plain::read_request(bytes, out)?;
    let [a, b, c, d] = texts.map(|text| text.len() as u64);
    *told = [kind.into(), a, b, c, d];
    Ok(read)
}

#[inline(never)]
pub fn write_request(out: &mut [u8], kind: u8, texts: [&[u8]; 4]) -> Result<usize, u8> {
    plain::write_request(out, kind, texts)
}
