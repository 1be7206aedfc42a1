//! In runs: a fast search finds the next 00 or FF, and what stands ahead of it is copied in one
//! piece.

use super::{part, special, Place, ESCAPE};
use crate::plain::refusal::{BAD_ESCAPE, MORE_NEEDED};

/// Bytes that are searched at once.
const BLOCK: usize = 32;
/// Bytes that are counted at once: their count fits a byte.
const CHUNK: usize = 255;
const LOW_BITS: u64 = u64::MAX / 255;
const HIGH_BITS: u64 = LOW_BITS << 7;

/// The high bit of each byte that is 00 or FF, and perhaps of some above the lowest of them.
#[inline(always)]
fn marks(word: u64) -> u64 {
    let zeros = |word: u64| word.wrapping_sub(LOW_BITS) & !word & HIGH_BITS;
    zeros(word) | zeros(!word)
}

/// How many bytes in front are neither 00 nor FF.
#[inline(always)]
fn run(bytes: &[u8]) -> usize {
    let mut n = 0;
    for block in bytes.chunks_exact(BLOCK) {
        if block.iter().fold(false, |any, &byte| any | special(byte)) {
            break;
        }
        n += BLOCK;
    }
    for word in bytes[n..].chunks_exact(8) {
        let marks = marks(u64::from_le_bytes(word.try_into().expect("eight bytes")));
        if marks != 0 {
            return n + marks.trailing_zeros() as usize / 8;
        }
        n += 8;
    }
    let rest = &bytes[n..];
    n + rest.iter().position(|&byte| special(byte)).unwrap_or(rest.len())
}

/// How many bytes a text takes as a string.
#[inline(always)]
pub fn string_len(text: &[u8]) -> usize {
    let count = |chunk: &[u8]| chunk.iter().map(|&byte| u8::from(special(byte))).sum::<u8>();
    text.len() + text.chunks(CHUNK).map(|chunk| usize::from(count(chunk))).sum::<usize>() + 1
}

/// The text as a string, from `at` on; the answer is the bytes written.
#[inline(always)]
pub fn write_string(out: &mut [u8], at: usize, text: &[u8]) -> Result<usize, u8> {
    let out = part(out, at, string_len(text))?;
    Ok(spell(out, text))
}

/// The text as a string in front of an output that is known to have the room; the answer is the
/// bytes written.
#[inline(always)]
pub(super) fn spell(mut out: &mut [u8], mut text: &[u8]) -> usize {
    let room = out.len();
    while let Some((&byte, rest)) = text.split_first() {
        if special(byte) {
            out[0] = ESCAPE;
            out[1] = byte;
            out = &mut out[2..];
            text = rest;
        } else {
            let (run, rest) = text.split_at(run(text));
            let (to, behind) = out.split_at_mut(run.len());
            to.copy_from_slice(run);
            (out, text) = (behind, rest);
        }
    }
    out[0] = 0;
    room - out.len() + 1
}

/// The string at `at`, of which nothing is stored.
#[inline(always)]
pub fn judge(bytes: &[u8], at: usize) -> Result<Place, u8> {
    let (mut len, mut i) = (0, at);
    while i < bytes.len() {
        match bytes[i] {
            0 => return Ok(Place { len, next: i + 1 }),
            ESCAPE => match bytes.get(i + 1) {
                None => return Err(MORE_NEEDED),
                Some(&byte) if special(byte) => {
                    len += 1;
                    i += 2;
                }
                Some(_) => return Err(BAD_ESCAPE),
            },
            _ => {
                let run = run(&bytes[i..]);
                len += run;
                i += run;
            }
        }
    }
    Err(MORE_NEEDED)
}

/// The string at `at`, decoded to `to`.
#[inline(always)]
pub fn decode(bytes: &[u8], at: usize, out: &mut [u8], to: usize) -> Result<Place, u8> {
    let place = judge(bytes, at)?;
    store(&bytes[at..], part(out, to, place.len)?);
    Ok(place)
}

/// The string in front, which has been judged, decoded to the front of an output that has the room.
#[inline(always)]
pub(super) fn store(bytes: &[u8], out: &mut [u8]) -> Place {
    let (mut i, mut len) = (0, 0);
    loop {
        match bytes[i] {
            0 => return Place { len, next: i + 1 },
            ESCAPE => {
                out[len] = bytes[i + 1];
                (i, len) = (i + 2, len + 1);
            }
            _ => {
                let run = run(&bytes[i..]);
                out[len..len + run].copy_from_slice(&bytes[i..i + run]);
                (i, len) = (i + run, len + run);
            }
        }
    }
}
