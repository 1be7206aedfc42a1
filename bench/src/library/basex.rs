//! BaseX. An answer is a count of bytes or a refusal. Strings stand here.

mod requests;
mod responses;

pub use requests::{read_request, write_request, REQUEST};
pub use responses::{error, item, read_response, write_end, write_item, ITEM, PLACE, RESPONSE};

use super::answer;
use crate::library::exports::*;
use bench::plain::basex::Place;

/// How many numbers are told of a string that was judged or decoded: its length, decoded.
pub const DECODED: usize = 1;

/// How many bytes a text takes as a string.
pub fn string_len(text: &[u8]) -> usize {
    // SAFETY: as in `library::read`.
    unsafe { kdr_basex_string_len(text.as_ptr(), text.len()) as usize }
}

/// The text as a string, from `at` on; the answer is the bytes written.
pub fn write_string(out: &mut [u8], at: usize, text: &[u8]) -> Result<usize, u8> {
    let (out, room) = (out.as_mut_ptr(), out.len());
    // SAFETY: as in `library::write`.
    answer(unsafe { kdr_basex_write_string(out, room, at, text.as_ptr(), text.len()) })
}

/// As `judge`, with the numbers lent; the answer is the bytes that the string takes.
#[rustfmt::skip]
pub fn string_at(bytes: &[u8], at: usize, told: &mut [u64]) -> Result<usize, u8> {
    // SAFETY: as in `library::read`.
    answer(unsafe {
        kdr_basex_string_at(bytes.as_ptr(), bytes.len(), at, told.as_mut_ptr(), told.len())
    })
}

/// The string at `at`, of which nothing is stored.
pub fn judge(bytes: &[u8], at: usize) -> Result<Place, u8> {
    let mut told = [0; DECODED];
    let count = string_at(bytes, at, &mut told)?;
    Ok(Place { len: told[0] as usize, next: at + count })
}

/// As `decode`, with the numbers lent; the answer is the bytes that the string takes.
#[rustfmt::skip]
pub fn read(
    bytes: &[u8], at: usize, out: &mut [u8], to: usize, told: &mut [u64],
) -> Result<usize, u8> {
    // SAFETY: as in `library::write`.
    answer(unsafe {
        kdr_basex_decode(
            bytes.as_ptr(), bytes.len(), at, out.as_mut_ptr(), out.len(), to,
            told.as_mut_ptr(), told.len(),
        )
    })
}

/// The string at `at`, decoded to `to`.
pub fn decode(bytes: &[u8], at: usize, out: &mut [u8], to: usize) -> Result<Place, u8> {
    let mut told = [0; DECODED];
    let count = read(bytes, at, out, to, &mut told)?;
    Ok(Place { len: told[0] as usize, next: at + count })
}
