//! Responses, read knowing the request.

use super::items::{judge_items, store_items};
use super::kind::Form;
use super::part;
use super::runs::{judge, store};
use crate::plain::refusal::{MORE_NEEDED, NOT_ALLOWED, UNKNOWN};

/// A response that was read; its texts stand in the output, one behind the other.
#[derive(Clone, Copy, Debug, PartialEq, Eq)]
pub struct Response<'o> {
    /// Those ahead of the status; empty where there are fewer.
    pub texts: [&'o [u8]; 2],
    /// How many items there are, and the URIs and texts of all of them.
    pub items: usize,
    pub listed: &'o [u8],
    pub status: u8,
    /// The string behind the status; empty where there is none.
    pub error: &'o [u8],
    /// Bytes read.
    pub read: usize,
}

/// What stands where, before a byte is stored.
struct Judged {
    texts: [usize; 2],
    items: usize,
    listed: usize,
    /// Where the status stands, and what it is.
    end: usize,
    status: u8,
    error: usize,
    read: usize,
}

/// The response in front of the bytes, to a request with this first byte. "1 for no byte, 2, then
/// fields left to right", "with 10 last".
#[inline(always)]
pub fn read_response<'o>(kind: u8, bytes: &[u8], out: &'o mut [u8]) -> Result<Response<'o>, u8> {
    if bytes.is_empty() {
        return Err(MORE_NEEDED);
    }
    let form = Form::of(kind).ok_or(UNKNOWN)?;
    let Judged { texts, items, listed, end, status, error, read } = judge_fields(form, bytes)?;
    let [first, second] = texts;
    let out = part(out, 0, first + second + listed + error)?;
    let (first, out) = out.split_at_mut(first);
    let (second, out) = out.split_at_mut(second);
    let (listed, error) = out.split_at_mut(listed);
    match form {
        Form::Items { full } => store_items(full, bytes, 0, listed),
        Form::Command => {
            let next = store(bytes, first).next;
            store(&bytes[next..], second);
        }
        Form::Stored | Form::Query => drop(store(bytes, first)),
    }
    if form.has_error(status) {
        store(&bytes[end + 1..], error);
    }
    Ok(Response { texts: [first, second], items, listed, status, error, read })
}

#[inline(always)]
fn judge_fields(form: Form, bytes: &[u8]) -> Result<Judged, u8> {
    let (mut texts, mut end) = ([0; 2], 0);
    for text in &mut texts[..form.texts()] {
        let place = judge(bytes, end)?;
        (*text, end) = (place.len, place.next);
    }
    let (mut items, mut listed) = (0, 0);
    if let Form::Items { full } = form {
        [items, listed, end] = judge_items(full, bytes, end)?;
    }
    let status = *bytes.get(end).ok_or(MORE_NEEDED)?;
    if status > 1 {
        return Err(NOT_ALLOWED);
    }
    let (mut error, mut read) = (0, end + 1);
    if form.has_error(status) {
        let place = judge(bytes, read)?;
        (error, read) = (place.len, place.next);
    }
    Ok(Judged { texts, items, listed, end, status, error, read })
}
