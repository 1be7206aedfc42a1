//! The plain implementation behind the boundary that the library has: functions that are called and
//! not inlined, and a message told as ten numbers. What a caller of a compiled library would get.

pub mod basex;
pub mod parts;
pub mod typed;

use crate::library::FIELDS;
use bench::plain::{self, Body, Message, Pairs, Session, Side, Value};

/// As `library::read`, for a good side and enough numbers.
#[inline(never)]
pub fn read(side: Side, bytes: &[u8], fields: &mut [u64; FIELDS]) -> Result<usize, u8> {
    let message = plain::read(side, bytes)?;
    tell(&message, bytes, fields);
    Ok(message.count)
}

/// As `library::fresh`, for a record that is long enough.
#[inline(never)]
pub fn fresh(session: &mut Session) {
    *session = Session::FRESH;
}

/// As `library::step`, for a record of its own kind, a good side and enough numbers.
#[inline(never)]
pub fn step(
    session: &mut Session,
    side: Side,
    bytes: &[u8],
    fields: &mut [u64; FIELDS],
) -> Result<usize, u8> {
    let message = session.step(side, bytes)?;
    tell(&message, bytes, fields);
    Ok(message.count)
}

/// As `library::closed`.
#[inline(never)]
pub fn closed(session: &Session) -> bool {
    session.closed()
}

/// As `library::option`, for pairs that were read and enough numbers.
#[inline(never)]
pub fn option(bytes: &[u8], pairs: &Pairs, k: usize, fields: &mut [u64; 3]) -> bool {
    let Some((id, value)) = pairs.iter().nth(k) else { return false };
    *fields = [id.into(), value.as_ptr() as u64 - bytes.as_ptr() as u64, value.len() as u64];
    true
}

/// A message as ten numbers: one match, each number stored once.
#[inline(always)]
fn tell(message: &Message, bytes: &[u8], fields: &mut [u64; FIELDS]) {
    let i = message.instruction.into();
    let at = |part: &[u8]| part.as_ptr() as u64 - bytes.as_ptr() as u64;
    let n = |part: &[u8]| part.len() as u64;
    *fields = match message.body {
        Body::Empty => [i, 0, 0, 0, 0, 0, 0, 0, 0, 0],
        Body::Session { major, minor, user: u, database: d } => {
            [i, 1, major.into(), minor.into(), at(u), n(u), at(d), n(d), 0, 0]
        }
        Body::Text(t) => [i, 2, 0, 0, at(t), n(t), 0, 0, 0, 0],
        Body::Statement { format, text: t } => [i, 3, format.into(), 0, at(t), n(t), 0, 0, 0, 0],
        Body::Coded { code, text: t } => [i, 4, code.into(), 0, at(t), n(t), 0, 0, 0, 0],
        Body::Options(pairs) => {
            let r = pairs.region();
            [i, 5, 0, 0, at(r), n(r), 0, 0, pairs.count() as u64, 0]
        }
        Body::Item { class, kind, url: None, part: p } => {
            [i, 6, class.into(), kind.into(), at(p), n(p), 0, 0, 0, 0]
        }
        Body::Item { class, kind, url: Some(u), part: p } => {
            [i, 6, class.into(), kind.into(), at(p), n(p), at(u), n(u), 0, 1]
        }
    };
}

/// As `library::write`: a match here, and one call for each shape.
pub fn write(out: &mut [u8], instruction: u32, value: &Value) -> Result<usize, u8> {
    match *value {
        Value::Empty => empty(out, instruction),
        Value::Session { major, minor, user, database } => {
            session(out, instruction, [major, minor], user, database)
        }
        Value::Text(t) => text(out, instruction, t),
        Value::Statement { format, text } => statement(out, instruction, format, text),
        Value::Coded { code, text } => coded(out, instruction, code, text),
        Value::Options { ids, lengths, values } => options(out, instruction, ids, lengths, values),
        Value::Item { class, kind, url: None, part } => item(out, instruction, [class, kind], part),
        Value::Item { class, kind, url: Some(url), part } => {
            item_url(out, instruction, [class, kind], url, part)
        }
    }
}

type Written = Result<usize, u8>;

#[inline(never)]
fn empty(out: &mut [u8], instruction: u32) -> Written {
    plain::write_empty(out, instruction)
}

#[inline(never)]
fn session(out: &mut [u8], instruction: u32, version: [u8; 2], user: &[u8], db: &[u8]) -> Written {
    plain::write_session(out, instruction, version, user, db)
}

#[inline(never)]
fn text(out: &mut [u8], instruction: u32, text: &[u8]) -> Written {
    plain::write_text(out, instruction, text)
}

#[inline(never)]
fn statement(out: &mut [u8], instruction: u32, format: u8, text: &[u8]) -> Written {
    plain::write_statement(out, instruction, format, text)
}

#[inline(never)]
fn coded(out: &mut [u8], instruction: u32, code: u32, text: &[u8]) -> Written {
    plain::write_coded(out, instruction, code, text)
}

#[inline(never)]
fn options(out: &mut [u8], i: u32, ids: &[u32], lengths: &[usize], values: &[u8]) -> Written {
    plain::write_options(out, i, ids, lengths, values)
}

#[inline(never)]
fn item(out: &mut [u8], instruction: u32, marks: [u8; 2], part: &[u8]) -> Written {
    plain::write_item(out, instruction, marks, None, part)
}

#[inline(never)]
fn item_url(out: &mut [u8], instruction: u32, marks: [u8; 2], url: &[u8], part: &[u8]) -> Written {
    plain::write_item(out, instruction, marks, Some(url), part)
}
