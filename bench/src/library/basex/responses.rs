//! Responses.

use super::answer;
use crate::library::exports::*;

/// How many numbers are told of a response that was read: two lengths, items and their length,
/// status, the error's length; of an item: id, two lengths; and of an error: start and length.
pub const RESPONSE: usize = 6;
pub const ITEM: usize = 3;
pub const PLACE: usize = 2;

/// The response in front of the bytes, its texts decoded to the front of the output; the answer is
/// the bytes read.
#[rustfmt::skip]
pub fn read_response(
    kind: u8, bytes: &[u8], out: &mut [u8], told: &mut [u64],
) -> Result<usize, u8> {
    // SAFETY: as in `library::write`.
    answer(unsafe {
        kdr_basex_read_response(
            kind, bytes.as_ptr(), bytes.len(), out.as_mut_ptr(), out.len(),
            told.as_mut_ptr(), told.len(),
        )
    })
}

/// Where the error of a response stands, of which these numbers were told; the answer is 1, or 0
/// where the request has not failed.
#[rustfmt::skip]
pub fn error(kind: u8, response: &[u64], place: &mut [u64]) -> Result<usize, u8> {
    // SAFETY: as in `library::read`.
    answer(unsafe {
        kdr_basex_error(
            kind, response.as_ptr(), response.len(), place.as_mut_ptr(), place.len(),
        )
    })
}

/// The item at `at`; the answer is the bytes that it takes, 0 for the 00 behind the last.
#[rustfmt::skip]
pub fn item(kind: u8, bytes: &[u8], at: usize, told: &mut [u64]) -> Result<usize, u8> {
    // SAFETY: as in `library::read`.
    answer(unsafe {
        kdr_basex_item(kind, bytes.as_ptr(), bytes.len(), at, told.as_mut_ptr(), told.len())
    })
}

/// An item, from `at` on; the answer is the bytes written.
#[rustfmt::skip]
pub fn write_item(
    out: &mut [u8], at: usize, kind: u8, id: u8, uri: &[u8], text: &[u8],
) -> Result<usize, u8> {
    // SAFETY: as in `library::write`.
    answer(unsafe {
        kdr_basex_write_item(
            out.as_mut_ptr(), out.len(), at, kind, id, uri.as_ptr(), uri.len(),
            text.as_ptr(), text.len(),
        )
    })
}

/// All of a response but its items, from `at` on; the answer is the bytes written.
#[rustfmt::skip]
pub fn write_end(
    out: &mut [u8], at: usize, kind: u8, [first, second]: [&[u8]; 2], status: u8, error: &[u8],
) -> Result<usize, u8> {
    // SAFETY: as in `library::write`.
    answer(unsafe {
        kdr_basex_write_end(
            out.as_mut_ptr(), out.len(), at, kind, first.as_ptr(), first.len(),
            second.as_ptr(), second.len(), status, error.as_ptr(), error.len(),
        )
    })
}
