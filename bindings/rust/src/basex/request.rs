//! Requests.

use super::Kind;
use crate::raw::basex as raw;
use crate::refusal::Refusal;

/// A request: what it is, and its texts.
#[derive(Clone, Copy, Debug, PartialEq, Eq)]
pub struct Request<'a> {
    /// What it is.
    pub kind: Kind,
    /// As many as its kind takes; the others are empty.
    pub texts: [&'a [u8]; 4],
}

impl<'a> Request<'a> {
    /// A request with up to four texts.
    ///
    /// ```
    /// use keddorimp::basex::{Kind, Request};
    ///
    /// let request = Request::new(Kind::CREATE, [b"db", b"<a/>"]);
    /// assert_eq!(request.texts, [&b"db"[..], b"<a/>", b"", b""]);
    /// ```
    pub fn new<const N: usize>(kind: Kind, given: [&'a [u8]; N]) -> Self {
        const { assert!(N <= 4, "a request has four texts at most") };
        let mut texts: [&[u8]; 4] = [&[]; 4];
        texts[..N].copy_from_slice(&given);
        Self { kind, texts }
    }
}

/// Reads the request at the front of the bytes, its texts into the output: the request, and how
/// many bytes were read.
///
/// Refused with 1, 2 and 13, and with 10 for an output that is too short for the texts.
///
/// ```
/// use keddorimp::basex::{read_request, Kind, Request};
///
/// let mut out = [0; 16];
/// let (request, count) = read_request(b"\x08db\0<a/>\0 and more", &mut out)?;
/// assert_eq!((request, count), (Request::new(Kind::CREATE, [b"db", b"<a/>"]), 9));
/// // A command has no byte of its own.
/// let (request, count) = read_request(b"list\0", &mut out)?;
/// assert_eq!((request.kind, request.texts[0], count), (Kind::COMMAND, &b"list"[..], 5));
/// # Ok::<(), keddorimp::Refusal>(())
/// ```
pub fn read_request<'o>(bytes: &[u8], out: &'o mut [u8]) -> Result<(Request<'o>, usize), Refusal> {
    let (count, [kind, lengths @ ..]) = raw::read_request(bytes, out)?;
    let mut rest: &[u8] = out;
    let texts = lengths.map(|len| split(&mut rest, len));
    Ok((Request { kind: Kind(kind as u8), texts }, count))
}

/// Writes a request into the front of the output; the answer is what was written.
///
/// Refused with 2 for a byte that starts no request, 8 for a text that its kind does not take, 11
/// for a command that is empty or does not start with a byte from 20 to FE, and 10 for an output
/// that is too short, in this order.
///
/// ```
/// use keddorimp::basex::{write_request, Kind, Request};
/// use keddorimp::Refusal;
///
/// let mut out = [0; 16];
/// let query = Request::new(Kind::QUERY, [b"1 to 3"]);
/// assert_eq!(write_request(&mut out, &query)?, b"\x001 to 3\0");
/// // A QUERY takes one text.
/// let query = Request::new(Kind::QUERY, [b"1 to 3", b"4"]);
/// assert_eq!(write_request(&mut out, &query), Err(Refusal::ValueNotAllowed));
/// # Ok::<(), Refusal>(())
/// ```
pub fn write_request<'o>(out: &'o mut [u8], request: &Request<'_>) -> Result<&'o [u8], Refusal> {
    let count = raw::write_request(out, request.kind.0, request.texts)?;
    Ok(&out[..count])
}

/// Takes `len` bytes off the front.
pub(super) fn split<'a>(rest: &mut &'a [u8], len: usize) -> &'a [u8] {
    let (front, behind) = rest.split_at(len);
    *rest = behind;
    front
}
