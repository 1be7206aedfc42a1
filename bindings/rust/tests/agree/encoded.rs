//! What the plain writers of BaseX make, as bytes of its own; or why they make nothing.

use bench::plain::basex::{self as plain, bytes, kind::Form};
use bench::plain::refusal::{NOT_ALLOWED, UNKNOWN};

/// With so much room, which is enough.
fn written(most: usize, write: impl FnOnce(&mut [u8]) -> Result<usize, u8>) -> Result<Vec<u8>, u8> {
    let mut out = vec![0; most];
    let count = write(&mut out)?;
    out.truncate(count);
    Ok(out)
}

/// As a string no byte takes more than two, and one stands behind them.
fn most(texts: &[&[u8]]) -> usize {
    texts.iter().map(|text| 2 * text.len() + 1).sum()
}

pub fn string(text: &[u8]) -> Vec<u8> {
    written(most(&[text]), |out| bytes::write_string(out, 0, text)).expect("there is room")
}

pub fn request(kind: u8, texts: [&[u8]; 4]) -> Result<Vec<u8>, u8> {
    written(1 + most(&texts), |out| plain::write_request(out, kind, texts))
}

pub fn item(kind: u8, id: u8, uri: Option<&[u8]>, text: &[u8]) -> Result<Vec<u8>, u8> {
    let most = 1 + most(&[uri.unwrap_or_default(), text]);
    written(most, |out| write_item(out, 0, kind, id, uri, text))
}

/// As the plain writer, to which an empty URI and none are the same; here they are kept apart.
pub fn write_item(
    out: &mut [u8],
    at: usize,
    kind: u8,
    id: u8,
    uri: Option<&[u8]>,
    text: &[u8],
) -> Result<usize, u8> {
    let full = Form::of(kind).ok_or(UNKNOWN)? == Form::Items { full: true };
    if uri.is_some() != plain::has_uri(full, id) {
        return Err(NOT_ALLOWED);
    }
    plain::write_item(out, at, kind, id, uri.unwrap_or_default(), text)
}

pub fn end(kind: u8, texts: [&[u8]; 2], status: u8, error: &[u8]) -> Result<Vec<u8>, u8> {
    let most = 2 + most(&texts) + most(&[error]);
    written(most, |out| plain::write_end(out, 0, kind, texts, status, error))
}
