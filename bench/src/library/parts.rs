//! Cutting and joining. The assembly that a join goes on with is kept here as seven numbers, and
//! what an accepted message has done is told as four.

use super::answer;
use crate::library::exports::*;
use bench::plain::{Gathered, Gathering};

/// How many numbers an assembly has, and how many are told.
pub const ASSEMBLY: usize = 7;
pub const TOLD: usize = 4;

pub fn statement_parts(bytes: usize) -> Result<usize, u8> {
    // SAFETY: numbers alone.
    answer(unsafe { kdr_statement_parts(bytes) })
}

pub fn item_parts(bytes: usize) -> Result<usize, u8> {
    // SAFETY: numbers alone.
    answer(unsafe { kdr_item_parts(bytes) })
}

pub fn typed_item_parts(bytes: usize, url: Option<usize>) -> Result<usize, u8> {
    // SAFETY: numbers alone.
    answer(match url {
        None => unsafe { kdr_typed_item_parts(bytes) },
        Some(url) => unsafe { kdr_typed_item_url_parts(bytes, url) },
    })
}

/// Part `k` of a statement; the answer is the bytes written.
pub fn write_statement_part(
    out: &mut [u8],
    format: u8,
    text: &[u8],
    k: usize,
) -> Result<usize, u8> {
    let (out, room) = (out.as_mut_ptr(), out.len());
    // SAFETY: as in `library::write`.
    answer(unsafe { kdr_write_statement_part(out, room, format, text.as_ptr(), text.len(), k) })
}

/// Of an item up to 3.0.
pub fn write_item_part(out: &mut [u8], text: &[u8], k: usize) -> Result<usize, u8> {
    let (out, room) = (out.as_mut_ptr(), out.len());
    // SAFETY: as in `library::write`.
    answer(unsafe { kdr_write_item_part(out, room, text.as_ptr(), text.len(), k) })
}

/// Of an item of 4.0; `marks` are class and type.
#[rustfmt::skip]
pub fn write_typed_item_part(
    out: &mut [u8],
    marks: [u8; 2],
    url: Option<&[u8]>,
    text: &[u8],
    k: usize,
) -> Result<usize, u8> {
    let (out, room) = (out.as_mut_ptr(), out.len());
    let ([class, kind], n) = (marks, text.len());
    // SAFETY: as in `library::write`.
    answer(unsafe {
        match url {
            None => kdr_write_typed_item_part(out, room, class, kind, text.as_ptr(), n, k),
            Some(url) => kdr_write_typed_item_url_part(
                out, room, class, kind, url.as_ptr(), url.len(), text.as_ptr(), n, k,
            ),
        }
    })
}

/// Puts a fresh opening into the front of `assembly`; the answer is 0.
pub fn open(assembly: &mut [u64], what: u64) -> Result<usize, u8> {
    // SAFETY: as in `library::read`.
    answer(unsafe { kdr_open(assembly.as_mut_ptr(), assembly.len(), what) })
}

/// Joins the message at the front of `bytes`; the answer is the bytes read.
#[rustfmt::skip]
pub fn join(
    assembly: &mut [u64],
    buffer: &mut [u8],
    side: u8,
    bytes: &[u8],
    told: &mut [u64],
) -> Result<usize, u8> {
    // SAFETY: as in `library::step`.
    answer(unsafe {
        kdr_join(
            assembly.as_mut_ptr(), assembly.len(), buffer.as_mut_ptr(), buffer.len(),
            side, bytes.as_ptr(), bytes.len(), told.as_mut_ptr(), told.len(),
        )
    })
}

/// The numbers by which the library keeps this gathering.
pub fn kept(gathering: &Gathering) -> [u64; ASSEMBLY] {
    let Gathering { what, begun, held, spoilt, format, class, kind } = *gathering;
    [
        what as u64,
        begun.into(),
        held as u64,
        spoilt.into(),
        format.into(),
        class.into(),
        kind.into(),
    ]
}

/// The numbers by which the library tells this.
pub fn told(gathered: Gathered) -> [u64; TOLD] {
    match gathered {
        Gathered::Part => [0; TOLD],
        Gathered::Statement { len, format } => [1, len as u64, format.into(), 0],
        Gathered::Item { len } => [2, len as u64, 0, 0],
        Gathered::TypedItem { len, class, kind } => [3, len as u64, class.into(), kind.into()],
    }
}
