//! BaseX: strings, twice, byte by byte and in runs between the escapes; and requests and responses,
//! whose strings are read and written in runs. Everything is judged before a byte of it is stored.

pub mod bytes;
mod items;
pub mod kind;
mod request;
mod response;
pub mod runs;
mod write_response;

pub use items::{has_uri, item, Item};
pub use request::{read_request, write_request, Request};
pub use response::{read_response, Response};
pub use write_response::{write_end, write_item};

use super::refusal::NO_ROOM;

/// A string that was read: its bytes once decoded, and where the next field starts.
#[derive(Clone, Copy, Debug, PartialEq, Eq)]
pub struct Place {
    pub len: usize,
    pub next: usize,
}

const ESCAPE: u8 = 0xFF;

/// What stands behind an escape.
#[inline(always)]
fn special(byte: u8) -> bool {
    matches!(byte, 0 | ESCAPE)
}

/// `count` bytes of the output from `at` on.
#[inline(always)]
fn part(out: &mut [u8], at: usize, count: usize) -> Result<&mut [u8], u8> {
    out.get_mut(at..).and_then(|out| out.get_mut(..count)).ok_or(NO_ROOM)
}
