//! Writing one message, all of it or nothing. Refusals in the order 2, 8, 11,
//! 10; a refused call leaves the output as it was.

use super::refusal::{NOT_ALLOWED, NO_ENCODING, NO_ROOM, UNKNOWN};
use super::{
    class_allowed, entry, format_allowed, kind_allowed, version_allowed, Shape, Value, BODY_MAX,
    HEAD,
};

/// A known instruction with a body of another shape. Document 01 gives it no
/// number of its own: the instruction is known, so its body is not allowed.
const OTHER_SHAPE: u8 = NOT_ALLOWED;

/// Format byte and length of a string.
const STRING: usize = 5;
/// The id of an option, or the code of an error.
const INT: usize = 4;

/// Writes `value` as the body of `instruction`; the answer is the bytes written.
pub fn write(out: &mut [u8], instruction: u32, value: &Value) -> Result<usize, u8> {
    match *value {
        Value::Empty => write_empty(out, instruction),
        Value::Session { major, minor, user, database } => {
            write_session(out, instruction, [major, minor], user, database)
        }
        Value::Text(text) => write_text(out, instruction, text),
        Value::Statement { format, text } => write_statement(out, instruction, format, text),
        Value::Coded { code, text } => write_coded(out, instruction, code, text),
        Value::Options { ids, lengths, values } => {
            write_options(out, instruction, ids, lengths, values)
        }
        Value::Item { class, kind, url, part } => {
            write_item(out, instruction, [class, kind], url, part)
        }
    }
}

pub fn write_empty(out: &mut [u8], instruction: u32) -> Result<usize, u8> {
    expect(instruction, Shape::Empty)?;
    begin(out, instruction, 0)?;
    Ok(HEAD)
}

pub fn write_session(
    out: &mut [u8],
    instruction: u32,
    version: [u8; 2],
    user: &[u8],
    database: &[u8],
) -> Result<usize, u8> {
    expect(instruction, Shape::Session)?;
    allow(version_allowed(version))?;
    let length = (2 + 2 * STRING + user.len()).saturating_add(database.len());
    let rest = begin(out, instruction, length)?;
    let rest = put(rest, &version);
    let rest = put_string(rest, user);
    put_string(rest, database);
    Ok(HEAD + length)
}

pub fn write_text(out: &mut [u8], instruction: u32, text: &[u8]) -> Result<usize, u8> {
    expect(instruction, Shape::Text)?;
    let length = STRING + text.len();
    let rest = begin(out, instruction, length)?;
    put_string(rest, text);
    Ok(HEAD + length)
}

pub fn write_statement(
    out: &mut [u8],
    instruction: u32,
    format: u8,
    text: &[u8],
) -> Result<usize, u8> {
    expect(instruction, Shape::Statement)?;
    allow(format_allowed(format))?;
    let length = 1 + STRING + text.len();
    let rest = begin(out, instruction, length)?;
    let rest = put(rest, &[format]);
    put_string(rest, text);
    Ok(HEAD + length)
}

pub fn write_coded(out: &mut [u8], instruction: u32, code: u32, text: &[u8]) -> Result<usize, u8> {
    expect(instruction, Shape::Coded)?;
    let length = INT + STRING + text.len();
    let rest = begin(out, instruction, length)?;
    let rest = put(rest, &code.to_be_bytes());
    put_string(rest, text);
    Ok(HEAD + length)
}

/// Pair k has `ids[k]` and the next `lengths[k]` bytes of `values`.
pub fn write_options(
    out: &mut [u8],
    instruction: u32,
    ids: &[u32],
    lengths: &[usize],
    mut values: &[u8],
) -> Result<usize, u8> {
    expect(instruction, Shape::Options)?;
    let total = lengths.iter().try_fold(0, |sum: usize, &n| sum.checked_add(n));
    allow(ids.len() == lengths.len() && total == Some(values.len()))?;
    let length = ids.len().saturating_mul(INT + STRING).saturating_add(values.len());
    let mut rest = begin(out, instruction, length)?;
    for (id, &n) in ids.iter().zip(lengths) {
        let (value, behind) = values.split_at(n);
        rest = put(rest, &id.to_be_bytes());
        rest = put_string(rest, value);
        values = behind;
    }
    Ok(HEAD + length)
}

/// `marks` are class and type; the URL flag is written before the URL.
pub fn write_item(
    out: &mut [u8],
    instruction: u32,
    marks: [u8; 2],
    url: Option<&[u8]>,
    part: &[u8],
) -> Result<usize, u8> {
    expect(instruction, Shape::Item)?;
    let [class, kind] = marks;
    allow(class_allowed(class) && kind_allowed(kind))?;
    let url_length = url.map_or(0, |url| STRING + url.len());
    let length = (marks.len() + 1 + STRING + part.len()).saturating_add(url_length);
    let mut rest = begin(out, instruction, length)?;
    rest = put(rest, &[class, kind, url.is_some().into()]);
    if let Some(url) = url {
        rest = put_string(rest, url);
    }
    put_string(rest, part);
    Ok(HEAD + length)
}

/// 2 for an unknown instruction; then its body has to be of this shape.
fn expect(instruction: u32, shape: Shape) -> Result<(), u8> {
    match entry(instruction) {
        None => Err(UNKNOWN),
        Some((_, known)) if known != shape => Err(OTHER_SHAPE),
        Some(_) => Ok(()),
    }
}

fn allow(allowed: bool) -> Result<(), u8> {
    if allowed {
        Ok(())
    } else {
        Err(NOT_ALLOWED)
    }
}

/// The last refusals, then the head; the answer is the room for the body.
fn begin(out: &mut [u8], instruction: u32, length: usize) -> Result<&mut [u8], u8> {
    if length > BODY_MAX {
        return Err(NO_ENCODING);
    }
    let message = out.get_mut(..HEAD + length).ok_or(NO_ROOM)?;
    let rest = put(message, &instruction.to_be_bytes());
    Ok(put(rest, &(length as u32).to_be_bytes()))
}

/// A string; the answer is the room behind it.
fn put_string<'a>(out: &'a mut [u8], text: &[u8]) -> &'a mut [u8] {
    let rest = put(out, &[0]);
    let rest = put(rest, &(text.len() as u32).to_be_bytes());
    put(rest, text)
}

/// `bytes` at the front of `out`; the answer is the room behind them.
fn put<'a>(out: &'a mut [u8], bytes: &[u8]) -> &'a mut [u8] {
    let (front, rest) = out.split_at_mut(bytes.len());
    front.copy_from_slice(bytes);
    rest
}
