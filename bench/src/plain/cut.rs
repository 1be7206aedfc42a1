//! Cutting a statement or an item into messages, part by part. Refusals in the order 8, 11, 14,
//! 10; a refused call leaves the output as it was.

use super::instruction::{EXECUTE, EXECUTE_LONG, ITEM_PART, ITEM_START, LONG_QUERY_END};
use super::refusal::{NOT_ALLOWED, NO_ENCODING, NO_SUCH_PART};
use super::{class_allowed, format_allowed, kind_allowed};
use super::{write_empty, write_item, write_statement, write_text};

/// The text of an Execute or an ExecuteLong.
const STATEMENT: usize = 10_234;
/// The text of an ItemPart.
const PART: usize = 10_235;
/// The text of an ItemStart, without a URL and with one of no bytes.
const START: usize = 10_232;
const START_WITH_URL: usize = 10_227;

/// How many messages a statement of so many bytes is cut into.
pub fn statement_parts(bytes: usize) -> usize {
    match bytes {
        0..=STATEMENT => 1,
        _ => bytes.div_ceil(STATEMENT) + 1,
    }
}

/// How many an item up to 3.0 is cut into.
pub fn item_parts(bytes: usize) -> usize {
    bytes.div_ceil(PART).max(1)
}

/// How many an item of 4.0 is cut into, with a URL of so many bytes or without one.
pub fn typed_item_parts(bytes: usize, url: Option<usize>) -> Result<usize, u8> {
    Ok(1 + bytes.saturating_sub(start_room(url)?).div_ceil(PART))
}

/// Part `k` of a statement.
pub fn write_statement_part(
    out: &mut [u8],
    format: u8,
    text: &[u8],
    k: usize,
) -> Result<usize, u8> {
    if !format_allowed(format) {
        return Err(NOT_ALLOWED);
    }
    if text.len() <= STATEMENT {
        return match k {
            0 => write_statement(out, EXECUTE, format, text),
            _ => Err(NO_SUCH_PART),
        };
    }
    let mut pieces = text.chunks(STATEMENT);
    let end = pieces.len();
    match pieces.nth(k) {
        Some(piece) => write_statement(out, EXECUTE_LONG, format, piece),
        None if k == end => write_empty(out, LONG_QUERY_END),
        None => Err(NO_SUCH_PART),
    }
}

/// Part `k` of an item up to 3.0: an item of no bytes has one part too.
pub fn write_item_part(out: &mut [u8], text: &[u8], k: usize) -> Result<usize, u8> {
    match text.chunks(PART).nth(k) {
        Some(piece) => write_text(out, ITEM_PART, piece),
        None if k == 0 => write_text(out, ITEM_PART, &[]),
        None => Err(NO_SUCH_PART),
    }
}

/// Part `k` of an item of 4.0; `marks` are class and type, and are judged for every part.
pub fn write_typed_item_part(
    out: &mut [u8],
    marks: [u8; 2],
    url: Option<&[u8]>,
    text: &[u8],
    k: usize,
) -> Result<usize, u8> {
    if !class_allowed(marks[0]) || !kind_allowed(marks[1]) {
        return Err(NOT_ALLOWED);
    }
    let room = start_room(url.map(<[u8]>::len))?;
    let (start, rest) = text.split_at(room.min(text.len()));
    match k.checked_sub(1) {
        None => write_item(out, ITEM_START, marks, url, start),
        Some(k) => {
            let piece = rest.chunks(PART).nth(k).ok_or(NO_SUCH_PART)?;
            write_text(out, ITEM_PART, piece)
        }
    }
}

/// The text that an ItemStart takes.
fn start_room(url: Option<usize>) -> Result<usize, u8> {
    match url {
        None => Ok(START),
        Some(url) => START_WITH_URL.checked_sub(url).ok_or(NO_ENCODING),
    }
}
