//! Responses, written item by item, and then the end.

use super::items::{has_uri, id_allowed};
use super::kind::Form;
use super::part;
use super::runs::{spell, string_len};
use crate::plain::refusal::{NOT_ALLOWED, UNKNOWN};

/// An item of the response to such a request, from `at` on; the answer is the bytes written. The
/// URI must be empty where the item has none.
#[inline(always)]
pub fn write_item(
    out: &mut [u8],
    at: usize,
    kind: u8,
    id: u8,
    uri: &[u8],
    text: &[u8],
) -> Result<usize, u8> {
    let Form::Items { full } = Form::of(kind).ok_or(UNKNOWN)? else {
        return Err(NOT_ALLOWED);
    };
    let with_uri = has_uri(full, id);
    if !id_allowed(id) || !(with_uri || uri.is_empty()) {
        return Err(NOT_ALLOWED);
    }
    let uri_count = if with_uri { string_len(uri) } else { 0 };
    let count = 1 + uri_count + string_len(text);
    let out = part(out, at, count)?;
    out[0] = id;
    if with_uri {
        spell(&mut out[1..], uri);
    }
    spell(&mut out[1 + uri_count..], text);
    Ok(count)
}

/// What stands behind the items, or all of a response that has none, from `at` on; the answer is
/// the bytes written. Texts and errors that the response does not have must be empty.
#[inline(always)]
pub fn write_end(
    out: &mut [u8],
    at: usize,
    kind: u8,
    texts: [&[u8]; 2],
    status: u8,
    error: &[u8],
) -> Result<usize, u8> {
    let form = Form::of(kind).ok_or(UNKNOWN)?;
    let (texts, unused) = texts.split_at(form.texts());
    let with_error = form.has_error(status);
    let spare = unused.iter().any(|text| !text.is_empty()) || !(with_error || error.is_empty());
    if status > 1 || spare {
        return Err(NOT_ALLOWED);
    }
    let listed = usize::from(matches!(form, Form::Items { .. }));
    let ahead = listed + texts.iter().map(|text| string_len(text)).sum::<usize>();
    let count = ahead + 1 + if with_error { string_len(error) } else { 0 };
    let out = part(out, at, count)?;
    // The 00 behind the items, where the response has any.
    out[..listed].fill(0);
    let mut to = listed;
    for text in texts {
        to += spell(&mut out[to..], text);
    }
    out[to] = status;
    if with_error {
        spell(&mut out[to + 1..], error);
    }
    Ok(count)
}
