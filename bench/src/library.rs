//! The library behind its C functions, as the Rust crate declares them. A slice passes as pointer
//! and length.

pub mod basex;
#[path = "../../bindings/rust/src/raw/exports.rs"]
mod exports;
pub mod parts;
pub mod typed;

use bench::plain::Value;
use exports::*;

/// How many numbers a message that was read fills.
pub const FIELDS: usize = 10;

/// How many bytes the record of a session has.
pub const SESSION: usize = 2;

/// What each of the numbers is; those that a shape does not use are 0.
pub mod field {
    pub const INSTRUCTION: usize = 0;
    pub const SHAPE: usize = 1;
    pub const A: usize = 2;
    pub const B: usize = 3;
    pub const START_1: usize = 4;
    pub const LENGTH_1: usize = 5;
    pub const START_2: usize = 6;
    pub const LENGTH_2: usize = 7;
    pub const COUNT: usize = 8;
    pub const HAS_URL: usize = 9;
}

/// A refusal is told as this with its number on top.
const REFUSED: u64 = 1 << 63;

/// The bytes read or written, or the refusal; 0 for one that fits no byte.
fn answer(code: u64) -> Result<usize, u8> {
    if code < REFUSED {
        Ok(code as usize)
    } else {
        Err(u8::try_from(code - REFUSED).unwrap_or(0))
    }
}

/// Side 1 is the client, 2 the server; an accepted message fills `fields`.
pub fn read(side: u8, bytes: &[u8], fields: &mut [u64]) -> Result<usize, u8> {
    // SAFETY: pointers and lengths are those of slices that are borrowed for the call.
    answer(unsafe {
        kdr_read(side, bytes.as_ptr(), bytes.len(), fields.as_mut_ptr(), fields.len())
    })
}

/// Puts a fresh session into the front of `session`; the answer is 0.
pub fn fresh(session: &mut [u8]) -> Result<usize, u8> {
    // SAFETY: as in `read`.
    answer(unsafe { kdr_fresh(session.as_mut_ptr(), session.len()) })
}

/// As `read`, for a message that the session goes on with; the session is then the one after it.
pub fn step(session: &mut [u8], side: u8, bytes: &[u8], fields: &mut [u64]) -> Result<usize, u8> {
    // SAFETY: as in `read`; the session and the numbers are borrowed apart from the bytes.
    answer(unsafe {
        kdr_step(
            session.as_mut_ptr(),
            session.len(),
            side,
            bytes.as_ptr(),
            bytes.len(),
            fields.as_mut_ptr(),
            fields.len(),
        )
    })
}

/// Whether the conversation has ended.
pub fn closed(session: &[u8]) -> bool {
    // SAFETY: as in `read`.
    unsafe { kdr_closed(session.as_ptr(), session.len()) == 1 }
}

/// 1 at the client's turn, 2 at the server's, 0 where the conversation has ended.
pub fn turn(session: &[u8]) -> u8 {
    // SAFETY: as in `read`.
    unsafe { kdr_turn(session.as_ptr(), session.len()) }
}

/// 1 and id, start and length of the k-th pair in `fields`, or 0 for none.
#[rustfmt::skip]
pub fn option(
    bytes: &[u8], (start, len): (usize, usize), k: usize, fields: &mut [u64],
) -> Result<usize, u8> {
    // SAFETY: as in `read`.
    answer(unsafe {
        kdr_option(
            bytes.as_ptr(), bytes.len(), start, len, k, fields.as_mut_ptr(), fields.len(),
        )
    })
}

/// Writes `value` as the body of `instruction`; the answer is the bytes written.
#[rustfmt::skip]
pub fn write(out: &mut [u8], instruction: u32, value: &Value) -> Result<usize, u8> {
    let (room, out) = (out.len(), out.as_mut_ptr());
    // SAFETY: as in `read`; the output is borrowed apart from all that is read.
    answer(unsafe {
        match *value {
            Value::Empty => kdr_write_empty(out, room, instruction),
            Value::Session { major, minor, user, database } => kdr_write_session(
                out, room, instruction, major, minor,
                user.as_ptr(), user.len(), database.as_ptr(), database.len(),
            ),
            Value::Text(text) => {
                kdr_write_text(out, room, instruction, text.as_ptr(), text.len())
            }
            Value::Statement { format, text } => {
                kdr_write_statement(out, room, instruction, format, text.as_ptr(), text.len())
            }
            Value::Coded { code, text } => {
                kdr_write_coded(out, room, instruction, code, text.as_ptr(), text.len())
            }
            Value::Options { ids, lengths, values } => kdr_write_options(
                out, room, instruction, ids.as_ptr(), ids.len(),
                lengths.as_ptr(), lengths.len(), values.as_ptr(), values.len(),
            ),
            Value::Item { class, kind, url: None, part } => kdr_write_item(
                out, room, instruction, class, kind, part.as_ptr(), part.len(),
            ),
            Value::Item { class, kind, url: Some(url), part } => kdr_write_item_url(
                out, room, instruction, class, kind,
                url.as_ptr(), url.len(), part.as_ptr(), part.len(),
            ),
        }
    })
}
