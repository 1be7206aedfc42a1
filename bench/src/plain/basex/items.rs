//! The items of a response to RESULTS or FULL.

use super::kind::Form;
use super::runs::{judge, store};
use crate::plain::refusal::{MORE_NEEDED, NOT_ALLOWED, UNKNOWN};

/// An item that was judged.
#[derive(Clone, Copy, Debug, PartialEq, Eq)]
pub struct Item {
    pub id: u8,
    /// The bytes of its URI once decoded, where it has one.
    pub uri: Option<usize>,
    /// Those of its text.
    pub text: usize,
    /// Where the next item starts, or the 00 behind the last.
    pub next: usize,
}

impl Item {
    /// The bytes of URI and text once decoded.
    #[inline(always)]
    pub fn decoded(&self) -> usize {
        self.uri.unwrap_or(0) + self.text
    }
}

/// "a type id (7-15 or 32-83, else 8)"
#[inline(always)]
pub fn id_allowed(id: u8) -> bool {
    matches!(id, 7..=15 | 32..=83)
}

/// "in FULL a URI string after 12, 14 and 82"
#[inline(always)]
pub fn has_uri(full: bool, id: u8) -> bool {
    full && matches!(id, 12 | 14 | 82)
}

/// The item at `at` of the response to such a request, of which nothing is stored; none for the 00
/// behind the last.
#[inline(always)]
pub fn item(kind: u8, bytes: &[u8], at: usize) -> Result<Option<Item>, u8> {
    // "1 for no byte, 2, then fields"
    if bytes.len() <= at {
        return Err(MORE_NEEDED);
    }
    match Form::of(kind).ok_or(UNKNOWN)? {
        Form::Items { full } => item_at(full, bytes, at),
        _ => Err(NOT_ALLOWED),
    }
}

#[inline(always)]
fn item_at(full: bool, bytes: &[u8], at: usize) -> Result<Option<Item>, u8> {
    let id = *bytes.get(at).ok_or(MORE_NEEDED)?;
    if id == 0 {
        return Ok(None);
    }
    if !id_allowed(id) {
        return Err(NOT_ALLOWED);
    }
    let (mut uri, mut next) = (None, at + 1);
    if has_uri(full, id) {
        let place = judge(bytes, next)?;
        (uri, next) = (Some(place.len), place.next);
    }
    let text = judge(bytes, next)?;
    Ok(Some(Item { id, uri, text: text.len, next: text.next }))
}

/// How many items start at `at`, the bytes of all of them once decoded, and where the status is.
#[inline(always)]
pub fn judge_items(full: bool, bytes: &[u8], mut at: usize) -> Result<[usize; 3], u8> {
    let (mut count, mut len) = (0, 0);
    while let Some(item) = item_at(full, bytes, at)? {
        count += 1;
        len += item.decoded();
        at = item.next;
    }
    Ok([count, len, at + 1])
}

/// The items at `at`, which have been judged, decoded to the front of the output.
#[inline(always)]
pub fn store_items(full: bool, bytes: &[u8], mut at: usize, out: &mut [u8]) {
    let mut to = 0;
    while bytes[at] != 0 {
        let strings = 1 + usize::from(has_uri(full, bytes[at]));
        at += 1;
        for _ in 0..strings {
            let place = store(&bytes[at..], &mut out[to..]);
            at += place.next;
            to += place.len;
        }
    }
}
