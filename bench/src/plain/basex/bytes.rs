//! Byte by byte.

use super::{part, special, Place, ESCAPE};
use crate::plain::refusal::{BAD_ESCAPE, MORE_NEEDED};

/// How many bytes a text takes as a string.
#[inline(always)]
pub fn string_len(text: &[u8]) -> usize {
    text.len() + text.iter().filter(|&&byte| special(byte)).count() + 1
}

/// The text as a string, from `at` on; the answer is the bytes written.
#[inline(always)]
pub fn write_string(out: &mut [u8], at: usize, text: &[u8]) -> Result<usize, u8> {
    let count = string_len(text);
    let out = part(out, at, count)?;
    let mut to = 0;
    for &byte in text {
        if special(byte) {
            out[to] = ESCAPE;
            to += 1;
        }
        out[to] = byte;
        to += 1;
    }
    out[to] = 0;
    Ok(count)
}

/// The string at `at`, of which nothing is stored.
#[inline(always)]
pub fn judge(bytes: &[u8], at: usize) -> Result<Place, u8> {
    let (mut len, mut i) = (0, at);
    while i < bytes.len() {
        match bytes[i] {
            0 => return Ok(Place { len, next: i + 1 }),
            ESCAPE => {
                i += 1;
                match bytes.get(i) {
                    None => return Err(MORE_NEEDED),
                    Some(&byte) if special(byte) => {}
                    Some(_) => return Err(BAD_ESCAPE),
                }
            }
            _ => {}
        }
        len += 1;
        i += 1;
    }
    Err(MORE_NEEDED)
}

/// The string at `at`, decoded to `to`.
#[inline(always)]
pub fn decode(bytes: &[u8], at: usize, out: &mut [u8], to: usize) -> Result<Place, u8> {
    let place = judge(bytes, at)?;
    let mut bytes = bytes[at..place.next].iter();
    for slot in part(out, to, place.len)? {
        let mut byte = bytes.next();
        if byte == Some(&ESCAPE) {
            byte = bytes.next();
        }
        // A string that was judged has a byte for every slot.
        *slot = *byte.unwrap_or(&0);
    }
    Ok(place)
}
