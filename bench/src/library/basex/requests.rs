//! Requests.

use super::answer;
use crate::library::exports::*;

/// How many numbers are told of a request that was read: kind, four lengths.
pub const REQUEST: usize = 5;

/// The request in front of the bytes, its texts decoded to the front of the output; the answer is
/// the bytes read.
#[rustfmt::skip]
pub fn read_request(bytes: &[u8], out: &mut [u8], told: &mut [u64]) -> Result<usize, u8> {
    // SAFETY: as in `library::write`.
    answer(unsafe {
        kdr_basex_read_request(
            bytes.as_ptr(), bytes.len(), out.as_mut_ptr(), out.len(),
            told.as_mut_ptr(), told.len(),
        )
    })
}

/// A request in front of the output; the answer is the bytes written.
#[rustfmt::skip]
pub fn write_request(out: &mut [u8], kind: u8, texts: [&[u8]; 4]) -> Result<usize, u8> {
    let [first, second, third, fourth] = texts;
    // SAFETY: as in `library::write`.
    answer(unsafe {
        kdr_basex_write_request(
            out.as_mut_ptr(), out.len(), kind, first.as_ptr(), first.len(),
            second.as_ptr(), second.len(), third.as_ptr(), third.len(),
            fourth.as_ptr(), fourth.len(),
        )
    })
}
