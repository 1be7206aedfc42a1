//! `libparts_c.a`: cutting and joining.

use super::exports::*;
use super::{answer, told};
use crate::refusal::Refusal;

/// An assembly: what is open (0 nothing, 1 a statement, 2 an item up to 3.0, 3 one of 4.0), whether
/// a part was taken, the bytes held, whether a part found no room, format, class and type.
pub type Record = [u64; 7];

pub fn statement_parts(n: usize) -> usize {
    // SAFETY: a number alone.
    unsafe { kdr_statement_parts(n) as usize }
}

pub fn item_parts(n: usize) -> usize {
    // SAFETY: a number alone.
    unsafe { kdr_item_parts(n) as usize }
}

pub fn typed_item_parts(n: usize) -> usize {
    // SAFETY: a number alone.
    unsafe { kdr_typed_item_parts(n) as usize }
}

pub fn typed_item_url_parts(n: usize, url: usize) -> Result<usize, Refusal> {
    // SAFETY: numbers alone.
    answer(unsafe { kdr_typed_item_url_parts(n, url) })
}

pub fn write_statement_part(
    out: &mut [u8],
    format: u8,
    text: &[u8],
    k: usize,
) -> Result<usize, Refusal> {
    let (to, room) = (out.as_mut_ptr(), out.len());
    // SAFETY: both are slices borrowed for the call, the output alone.
    answer(unsafe { kdr_write_statement_part(to, room, format, text.as_ptr(), text.len(), k) })
}

pub fn write_item_part(out: &mut [u8], text: &[u8], k: usize) -> Result<usize, Refusal> {
    let (to, room) = (out.as_mut_ptr(), out.len());
    // SAFETY: both are slices borrowed for the call, the output alone.
    answer(unsafe { kdr_write_item_part(to, room, text.as_ptr(), text.len(), k) })
}

#[rustfmt::skip]
pub fn write_typed_item_part(
    out: &mut [u8],
    [class, kind]: [u8; 2],
    text: &[u8],
    k: usize,
) -> Result<usize, Refusal> {
    // SAFETY: both are slices borrowed for the call, the output alone.
    answer(unsafe {
        kdr_write_typed_item_part(
            out.as_mut_ptr(), out.len(), class, kind, text.as_ptr(), text.len(), k,
        )
    })
}

#[rustfmt::skip]
pub fn write_typed_item_url_part(
    out: &mut [u8],
    [class, kind]: [u8; 2],
    url: &[u8],
    text: &[u8],
    k: usize,
) -> Result<usize, Refusal> {
    // SAFETY: the three are slices borrowed for the call, the output alone.
    answer(unsafe {
        kdr_write_typed_item_url_part(
            out.as_mut_ptr(), out.len(), class, kind, url.as_ptr(), url.len(),
            text.as_ptr(), text.len(), k,
        )
    })
}

/// The record of a fresh opening: 1 for a statement, 2 for an item up to 3.0, 3 for one of 4.0.
pub fn open(what: u64) -> Record {
    let mut record = [0; 7];
    // SAFETY: the record is an array of this function, borrowed alone.
    let code = unsafe { kdr_open(record.as_mut_ptr(), record.len(), what) };
    answer(code).expect("seven numbers and one of three kinds are an opening");
    record
}

/// The bytes read; and 0 for a part, or 1, 2 or 3 for what is finished, its length, its format or
/// class, and its type.
#[rustfmt::skip]
pub fn join(
    record: &mut Record,
    buffer: &mut [u8],
    side: u8,
    bytes: &[u8],
) -> Result<(usize, [usize; 4]), Refusal> {
    let mut numbers = [0; 4];
    // SAFETY: record, buffer and bytes are slices borrowed for the call, the first two alone; the
    // numbers are an array of this function.
    let code = unsafe {
        kdr_join(
            record.as_mut_ptr(), record.len(), buffer.as_mut_ptr(), buffer.len(),
            side, bytes.as_ptr(), bytes.len(), numbers.as_mut_ptr(), numbers.len(),
        )
    };
    told(code, numbers)
}
