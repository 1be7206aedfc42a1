//! `libbasex_c.a`: strings, requests and responses.

use super::exports::*;
use super::{answer, told};
use crate::refusal::Refusal;

pub fn string_len(text: &[u8]) -> usize {
    // SAFETY: the text is a slice borrowed for the call.
    unsafe { kdr_basex_string_len(text.as_ptr(), text.len()) as usize }
}

/// The bytes written from `at` on.
pub fn write_string(out: &mut [u8], at: usize, text: &[u8]) -> Result<usize, Refusal> {
    let (to, room) = (out.as_mut_ptr(), out.len());
    // SAFETY: both are slices borrowed for the call, the output alone.
    answer(unsafe { kdr_basex_write_string(to, room, at, text.as_ptr(), text.len()) })
}

/// The bytes of the string at `at`, and how long its text is.
pub fn string_at(bytes: &[u8], at: usize) -> Result<(usize, [usize; 1]), Refusal> {
    let mut numbers = [0];
    let (to, room) = (numbers.as_mut_ptr(), numbers.len());
    // SAFETY: the bytes are a slice borrowed for the call, the numbers an array of this function.
    told(unsafe { kdr_basex_string_at(bytes.as_ptr(), bytes.len(), at, to, room) }, numbers)
}

/// The same, and the text put into the output from `to` on.
#[rustfmt::skip]
pub fn decode(
    bytes: &[u8],
    at: usize,
    out: &mut [u8],
    to: usize,
) -> Result<(usize, [usize; 1]), Refusal> {
    let mut numbers = [0];
    // SAFETY: both are slices borrowed for the call, the output alone; the numbers are an array of
    // this function.
    let code = unsafe {
        kdr_basex_decode(
            bytes.as_ptr(), bytes.len(), at, out.as_mut_ptr(), out.len(), to,
            numbers.as_mut_ptr(), numbers.len(),
        )
    };
    told(code, numbers)
}

/// The bytes read; the kind, and how long each of four texts is.
#[rustfmt::skip]
pub fn read_request(bytes: &[u8], out: &mut [u8]) -> Result<(usize, [usize; 5]), Refusal> {
    let mut numbers = [0; 5];
    // SAFETY: both are slices borrowed for the call, the output alone; the numbers are an array of
    // this function.
    let code = unsafe {
        kdr_basex_read_request(
            bytes.as_ptr(), bytes.len(), out.as_mut_ptr(), out.len(),
            numbers.as_mut_ptr(), numbers.len(),
        )
    };
    told(code, numbers)
}

/// The bytes written.
#[rustfmt::skip]
pub fn write_request(
    out: &mut [u8],
    kind: u8,
    [first, second, third, fourth]: [&[u8]; 4],
) -> Result<usize, Refusal> {
    // SAFETY: output and texts are slices borrowed for the call, the output alone.
    answer(unsafe {
        kdr_basex_write_request(
            out.as_mut_ptr(), out.len(), kind, first.as_ptr(), first.len(),
            second.as_ptr(), second.len(), third.as_ptr(), third.len(),
            fourth.as_ptr(), fourth.len(),
        )
    })
}

/// What is told of a response: how long the two texts ahead of the status are, how many items there
/// are and how long all their texts are, the status, and how long the error is.
pub type Told = [u64; 6];

/// The bytes read, and what is told.
#[rustfmt::skip]
pub fn read_response(kind: u8, bytes: &[u8], out: &mut [u8]) -> Result<(usize, Told), Refusal> {
    let mut numbers = [0; 6];
    // SAFETY: both are slices borrowed for the call, the output alone; the numbers are an array of
    // this function.
    let code = unsafe {
        kdr_basex_read_response(
            kind, bytes.as_ptr(), bytes.len(), out.as_mut_ptr(), out.len(),
            numbers.as_mut_ptr(), numbers.len(),
        )
    };
    Ok((answer(code)?, numbers))
}

/// Where the error starts in the output that the response was read into, and how long it is; none
/// where the request has not failed.
pub fn error(kind: u8, response: &Told) -> Result<Option<[usize; 2]>, Refusal> {
    let mut place = [0; 2];
    let (to, room) = (place.as_mut_ptr(), place.len());
    // SAFETY: the response is a slice borrowed for the call, the place an array of this function.
    let code = unsafe { kdr_basex_error(kind, response.as_ptr(), response.len(), to, room) };
    let (failed, place) = told(code, place)?;
    Ok((failed == 1).then_some(place))
}

/// The bytes of the item at `at`, 0 at the end of the items; its id, and how long its URI and its
/// text are.
pub fn item(kind: u8, bytes: &[u8], at: usize) -> Result<(usize, [usize; 3]), Refusal> {
    let mut numbers = [0; 3];
    let (to, room) = (numbers.as_mut_ptr(), numbers.len());
    // SAFETY: the bytes are a slice borrowed for the call, the numbers an array of this function.
    told(unsafe { kdr_basex_item(kind, bytes.as_ptr(), bytes.len(), at, to, room) }, numbers)
}

/// The bytes written from `at` on.
#[rustfmt::skip]
pub fn write_item(
    out: &mut [u8],
    at: usize,
    kind: u8,
    id: u8,
    uri: &[u8],
    text: &[u8],
) -> Result<usize, Refusal> {
    // SAFETY: output and texts are slices borrowed for the call, the output alone.
    answer(unsafe {
        kdr_basex_write_item(
            out.as_mut_ptr(), out.len(), at, kind, id, uri.as_ptr(), uri.len(),
            text.as_ptr(), text.len(),
        )
    })
}

/// Whether an item with this id has a URI in the response to such a request; or why there is no
/// such item, or none with a URI. The library has no call for it: given a URI and no room, it
/// refuses with 10, last of all, exactly an item that has one.
pub fn takes_uri(kind: u8, id: u8) -> Result<(), Refusal> {
    match write_item(&mut [], 0, kind, id, b"u", b"") {
        Ok(_) | Err(Refusal::NoRoom) => Ok(()),
        Err(refusal) => Err(refusal),
    }
}

/// The bytes written from `at` on.
#[rustfmt::skip]
pub fn write_end(
    out: &mut [u8],
    at: usize,
    kind: u8,
    [first, second]: [&[u8]; 2],
    status: u8,
    error: &[u8],
) -> Result<usize, Refusal> {
    // SAFETY: output and texts are slices borrowed for the call, the output alone.
    answer(unsafe {
        kdr_basex_write_end(
            out.as_mut_ptr(), out.len(), at, kind, first.as_ptr(), first.len(),
            second.as_ptr(), second.len(), status, error.as_ptr(), error.len(),
        )
    })
}
