//! Reading one message, in document 01's order of refusals. Inlined by order: left to itself the
//! compiler makes a call of it, and the message goes through memory once more.

use super::refusal::{
    BODY_TOO_LONG, ENDS_INSIDE, LEFT_OVER, MORE_NEEDED, NOT_ALLOWED, OTHER_SIDE, STRING_FORMAT,
    UNKNOWN,
};
use super::{
    class_allowed, entry, format_allowed, kind_allowed, version_allowed, Body, Message, Pairs,
    Shape, Side, BODY_MAX, HEAD,
};

/// Reads the message at the front of `bytes`; what follows it is not touched.
#[inline(always)]
pub fn read(side: Side, bytes: &[u8]) -> Result<Message<'_>, u8> {
    let (instruction, rest) = int(bytes).map_err(|_| MORE_NEEDED)?;
    let (length, rest) = int(rest).map_err(|_| MORE_NEEDED)?;
    let (sender, shape) = entry(instruction).ok_or(UNKNOWN)?;
    if sender != side {
        return Err(OTHER_SIDE);
    }
    let length = length as usize;
    if length > BODY_MAX {
        return Err(BODY_TOO_LONG);
    }
    let body = body(shape, rest.get(..length).ok_or(MORE_NEEDED)?)?;
    Ok(Message { instruction, body, count: HEAD + length })
}

/// The fields from left to right, and nothing behind them.
#[inline(always)]
fn body(shape: Shape, bytes: &[u8]) -> Result<Body<'_>, u8> {
    let (body, rest) = match shape {
        Shape::Empty => (Body::Empty, bytes),
        Shape::Session => session(bytes)?,
        Shape::Text => {
            let (text, rest) = string(bytes)?;
            (Body::Text(text), rest)
        }
        Shape::Statement => statement(bytes)?,
        Shape::Coded => {
            let (code, rest) = int(bytes)?;
            let (text, rest) = string(rest)?;
            (Body::Coded { code, text }, rest)
        }
        Shape::Options => return options(bytes),
        Shape::Item => item(bytes)?,
    };
    if !rest.is_empty() {
        return Err(LEFT_OVER);
    }
    Ok(body)
}

/// A field, and the bytes behind it.
type Field<'a, T> = Result<(T, &'a [u8]), u8>;

#[inline(always)]
fn session(bytes: &[u8]) -> Field<'_, Body<'_>> {
    let (&version, rest) = bytes.split_first_chunk().ok_or(ENDS_INSIDE)?;
    if !version_allowed(version) {
        return Err(NOT_ALLOWED);
    }
    let [major, minor] = version;
    let (user, rest) = string(rest)?;
    let (database, rest) = string(rest)?;
    let body = Body::Session { major, minor, user, database };
    Ok((body, rest))
}

#[inline(always)]
fn statement(bytes: &[u8]) -> Field<'_, Body<'_>> {
    let (format, rest) = byte(bytes, format_allowed)?;
    let (text, rest) = string(rest)?;
    Ok((Body::Statement { format, text }, rest))
}

#[inline(always)]
fn item(bytes: &[u8]) -> Field<'_, Body<'_>> {
    let (class, rest) = byte(bytes, class_allowed)?;
    let (kind, rest) = byte(rest, kind_allowed)?;
    let (flag, rest) = byte(rest, |flag| flag <= 1)?;
    let (url, rest) = if flag == 1 {
        let (url, rest) = string(rest)?;
        (Some(url), rest)
    } else {
        (None, rest)
    };
    let (part, rest) = string(rest)?;
    let body = Body::Item { class, kind, url, part };
    Ok((body, rest))
}

/// Pairs up to the body's end, so nothing can be left over.
#[inline(always)]
fn options(region: &[u8]) -> Result<Body<'_>, u8> {
    let mut count = 0;
    let mut rest = region;
    while !rest.is_empty() {
        (_, _, rest) = pair(rest)?;
        count += 1;
    }
    Ok(Body::Options(Pairs { region, count }))
}

/// One option: its id, its value, and the bytes behind it.
#[inline(always)]
pub(super) fn pair(bytes: &[u8]) -> Result<(u32, &[u8], &[u8]), u8> {
    let (id, rest) = int(bytes)?;
    let (value, rest) = string(rest)?;
    Ok((id, value, rest))
}

#[inline(always)]
fn byte(bytes: &[u8], allowed: impl Fn(u8) -> bool) -> Field<'_, u8> {
    let (&byte, rest) = bytes.split_first().ok_or(ENDS_INSIDE)?;
    if !allowed(byte) {
        return Err(NOT_ALLOWED);
    }
    Ok((byte, rest))
}

#[inline(always)]
fn int(bytes: &[u8]) -> Field<'_, u32> {
    let (int, rest) = bytes.split_first_chunk().ok_or(ENDS_INSIDE)?;
    Ok((u32::from_be_bytes(*int), rest))
}

/// The format byte is judged before the length is looked for.
#[inline(always)]
fn string(bytes: &[u8]) -> Field<'_, &[u8]> {
    match bytes {
        [0, rest @ ..] => {
            let (length, rest) = int(rest)?;
            rest.split_at_checked(length as usize).ok_or(ENDS_INSIDE)
        }
        [] => Err(ENDS_INSIDE),
        _ => Err(STRING_FORMAT),
    }
}
