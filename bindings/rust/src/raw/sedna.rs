//! `libsedna_c.a`: reading, writing and the session.

use super::answer;
use super::exports::*;
use crate::refusal::Refusal;

/// What a message is told as: instruction, shape, two numbers, two places, a count, and whether
/// there is a URL. Those that its shape does not use are 0.
pub type Fields = [u64; 10];

/// The bytes read; an accepted message fills the fields.
pub fn read(side: u8, bytes: &[u8], fields: &mut Fields) -> Result<usize, Refusal> {
    let (numbers, room) = (fields.as_mut_ptr(), fields.len());
    // SAFETY: the bytes and the fields are slices borrowed for the call, the fields alone.
    answer(unsafe { kdr_read(side, bytes.as_ptr(), bytes.len(), numbers, room) })
}

/// A fresh session's record.
pub fn fresh() -> [u8; 2] {
    let mut session = [0; 2];
    // SAFETY: the session is an array of this function, borrowed alone.
    let code = unsafe { kdr_fresh(session.as_mut_ptr(), session.len()) };
    answer(code).expect("two bytes are enough for a session");
    session
}

/// As `read`, for a message that the session goes on with; the record is then the one behind it.
pub fn step(
    session: &mut [u8; 2],
    side: u8,
    bytes: &[u8],
    fields: &mut Fields,
) -> Result<usize, Refusal> {
    let (record, len) = (session.as_mut_ptr(), session.len());
    let (numbers, room) = (fields.as_mut_ptr(), fields.len());
    // SAFETY: the three are slices borrowed for the call, the session and the fields alone.
    answer(unsafe { kdr_step(record, len, side, bytes.as_ptr(), bytes.len(), numbers, room) })
}

/// Whether the conversation is over.
pub fn closed(session: &[u8; 2]) -> bool {
    // SAFETY: the session is a slice borrowed for the call.
    unsafe { kdr_closed(session.as_ptr(), session.len()) == 1 }
}

/// Whose turn it is: 1 the client's, 2 the server's, 0 where the conversation is over.
pub fn turn(session: &[u8; 2]) -> u8 {
    // SAFETY: the session is a slice borrowed for the call.
    unsafe { kdr_turn(session.as_ptr(), session.len()) }
}

/// Id, start and length of the option number `k` among the pairs from `start` to the end.
pub fn option(bytes: &[u8], start: usize, k: usize) -> Option<[u64; 3]> {
    let len = bytes.len() - start;
    let mut fields = [0; 3];
    let (numbers, room) = (fields.as_mut_ptr(), fields.len());
    // SAFETY: the bytes are a slice borrowed for the call, the fields an array of this function.
    let found = unsafe { kdr_option(bytes.as_ptr(), bytes.len(), start, len, k, numbers, room) };
    (found == 1).then_some(fields)
}

pub fn write_empty(out: &mut [u8], instruction: u32) -> Result<usize, Refusal> {
    // SAFETY: the output is a slice borrowed alone for the call.
    answer(unsafe { kdr_write_empty(out.as_mut_ptr(), out.len(), instruction) })
}

#[rustfmt::skip]
pub fn write_session(
    out: &mut [u8],
    instruction: u32,
    [major, minor]: [u8; 2],
    user: &[u8],
    database: &[u8],
) -> Result<usize, Refusal> {
    // SAFETY: the three are slices borrowed for the call, the output alone.
    answer(unsafe {
        kdr_write_session(
            out.as_mut_ptr(), out.len(), instruction, major, minor,
            user.as_ptr(), user.len(), database.as_ptr(), database.len(),
        )
    })
}

pub fn write_text(out: &mut [u8], instruction: u32, text: &[u8]) -> Result<usize, Refusal> {
    let (to, room) = (out.as_mut_ptr(), out.len());
    // SAFETY: both are slices borrowed for the call, the output alone.
    answer(unsafe { kdr_write_text(to, room, instruction, text.as_ptr(), text.len()) })
}

pub fn write_statement(
    out: &mut [u8],
    instruction: u32,
    format: u8,
    text: &[u8],
) -> Result<usize, Refusal> {
    let (to, room) = (out.as_mut_ptr(), out.len());
    // SAFETY: both are slices borrowed for the call, the output alone.
    answer(unsafe { kdr_write_statement(to, room, instruction, format, text.as_ptr(), text.len()) })
}

pub fn write_coded(
    out: &mut [u8],
    instruction: u32,
    code: u32,
    text: &[u8],
) -> Result<usize, Refusal> {
    let (to, room) = (out.as_mut_ptr(), out.len());
    // SAFETY: both are slices borrowed for the call, the output alone.
    answer(unsafe { kdr_write_coded(to, room, instruction, code, text.as_ptr(), text.len()) })
}

#[rustfmt::skip]
pub fn write_options(
    out: &mut [u8],
    instruction: u32,
    ids: &[u32],
    lengths: &[usize],
    values: &[u8],
) -> Result<usize, Refusal> {
    // SAFETY: the four are slices borrowed for the call, the output alone.
    answer(unsafe {
        kdr_write_options(
            out.as_mut_ptr(), out.len(), instruction, ids.as_ptr(), ids.len(),
            lengths.as_ptr(), lengths.len(), values.as_ptr(), values.len(),
        )
    })
}

#[rustfmt::skip]
pub fn write_item(
    out: &mut [u8],
    instruction: u32,
    [class, kind]: [u8; 2],
    part: &[u8],
) -> Result<usize, Refusal> {
    // SAFETY: both are slices borrowed for the call, the output alone.
    answer(unsafe {
        kdr_write_item(
            out.as_mut_ptr(), out.len(), instruction, class, kind, part.as_ptr(), part.len(),
        )
    })
}

#[rustfmt::skip]
pub fn write_item_url(
    out: &mut [u8],
    instruction: u32,
    [class, kind]: [u8; 2],
    url: &[u8],
    part: &[u8],
) -> Result<usize, Refusal> {
    // SAFETY: the three are slices borrowed for the call, the output alone.
    answer(unsafe {
        kdr_write_item_url(
            out.as_mut_ptr(), out.len(), instruction, class, kind,
            url.as_ptr(), url.len(), part.as_ptr(), part.len(),
        )
    })
}
