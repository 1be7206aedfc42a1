//! Cutting and joining.

use crate::library::parts::{told, TOLD};
use bench::plain::{self, Gathering, Side, What};

#[inline(never)]
pub fn statement_parts(bytes: usize) -> usize {
    plain::statement_parts(bytes)
}

#[inline(never)]
pub fn item_parts(bytes: usize) -> usize {
    plain::item_parts(bytes)
}

#[inline(never)]
pub fn typed_item_parts(bytes: usize, url: Option<usize>) -> Result<usize, u8> {
    plain::typed_item_parts(bytes, url)
}

#[inline(never)]
pub fn write_statement_part(
    out: &mut [u8],
    format: u8,
    text: &[u8],
    k: usize,
) -> Result<usize, u8> {
    plain::write_statement_part(out, format, text, k)
}

#[inline(never)]
pub fn write_item_part(out: &mut [u8], text: &[u8], k: usize) -> Result<usize, u8> {
    plain::write_item_part(out, text, k)
}

#[inline(never)]
pub fn write_typed_item_part(
    out: &mut [u8],
    marks: [u8; 2],
    url: Option<&[u8]>,
    text: &[u8],
    k: usize,
) -> Result<usize, u8> {
    plain::write_typed_item_part(out, marks, url, text, k)
}

/// As `library::parts::open`, for a record of its own kind.
#[inline(never)]
pub fn open(gathering: &mut Gathering, what: What) {
    *gathering = Gathering::open(what);
}

/// As `library::parts::join`, for a record of its own kind, a good side and enough numbers.
#[inline(never)]
pub fn join(
    gathering: &mut Gathering,
    buffer: &mut [u8],
    side: Side,
    bytes: &[u8],
    numbers: &mut [u64; TOLD],
) -> Result<usize, u8> {
    let message = plain::read(side, bytes)?;
    *numbers = told(gathering.join(buffer, &message)?);
    Ok(message.count)
}
