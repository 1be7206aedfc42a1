//! Requests.

use super::kind::{is_command, strings, COMMAND};
use super::part;
use super::runs::{judge, spell, store, string_len};
use crate::plain::refusal::{MORE_NEEDED, NOT_ALLOWED, NO_ENCODING, UNKNOWN};

/// A request that was read; its texts stand in the output, one behind the other.
#[derive(Clone, Copy, Debug, PartialEq, Eq)]
pub struct Request<'o> {
    /// Its first byte, and `COMMAND` for every command.
    pub kind: u8,
    /// Those that the kind does not have are empty.
    pub texts: [&'o [u8]; 4],
    /// Bytes read.
    pub read: usize,
}

/// The request in front of the bytes. "1 for no byte, 2, then fields left to right", "with 10
/// last".
#[inline(always)]
pub fn read_request<'o>(bytes: &[u8], out: &'o mut [u8]) -> Result<Request<'o>, u8> {
    let first = *bytes.first().ok_or(MORE_NEEDED)?;
    let count = strings(first).ok_or(UNKNOWN)?;
    // A command's first byte is part of its text.
    let (kind, start) = if is_command(first) { (COMMAND, 0) } else { (first, 1) };
    let (mut read, mut len) = (start, 0);
    for _ in 0..count {
        let place = judge(bytes, read)?;
        read = place.next;
        len += place.len;
    }
    let (mut at, mut out) = (start, part(out, 0, len)?);
    let mut texts = [&[][..]; 4];
    for text in &mut texts[..count] {
        let place = store(&bytes[at..], out);
        at += place.next;
        let (decoded, rest) = out.split_at_mut(place.len);
        *text = decoded;
        out = rest;
    }
    Ok(Request { kind, texts, read })
}

/// A request in front of the output; the answer is the bytes written. Texts that the kind does not
/// have must be empty.
#[inline(always)]
pub fn write_request(out: &mut [u8], kind: u8, texts: [&[u8]; 4]) -> Result<usize, u8> {
    let count = strings(kind).ok_or(UNKNOWN)?;
    let (texts, unused) = texts.split_at(count);
    if unused.iter().any(|text| !text.is_empty()) {
        return Err(NOT_ALLOWED);
    }
    let command = is_command(kind);
    // "A command that is empty or starts otherwise: 11."
    if command && !texts[0].first().is_some_and(|&first| is_command(first)) {
        return Err(NO_ENCODING);
    }
    let mut at = usize::from(!command);
    let count = at + texts.iter().map(|text| string_len(text)).sum::<usize>();
    let out = part(out, 0, count)?;
    if !command {
        out[0] = kind;
    }
    for text in texts {
        at += spell(&mut out[at..], text);
    }
    Ok(count)
}
