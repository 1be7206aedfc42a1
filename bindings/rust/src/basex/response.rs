//! Responses, read knowing the request.

use super::request::split;
use super::{Items, Kind};
use crate::raw::basex as raw;
use crate::refusal::Refusal;

/// A response that was read from bytes that live for `'b`; its texts, and those of its items, stand
/// in the output and live for `'o`.
#[derive(Clone, Debug)]
pub struct Response<'b, 'o> {
    /// The kind of the request that it answers.
    pub kind: Kind,
    /// Its items: none but for RESULTS and FULL. Going through them takes a clone, which is small,
    /// where the response is used behind the loop:
    ///
    /// ```
    /// # use keddorimp::basex::{read_response, Kind};
    /// # let mut out = [0; 16];
    /// # let bytes = b"\x341\0\0\x01stopped\0";
    /// let (response, _) = read_response(Kind::RESULTS, bytes, &mut out)?;
    /// for item in response.items.clone() {
    ///     assert_eq!(item.text, b"1");
    /// }
    /// assert_eq!(response.failure(), Some(&b"stopped"[..]));
    /// # Ok::<(), keddorimp::Refusal>(())
    /// ```
    pub items: Items<'b, 'o>,
    /// All else.
    pub end: End<'o>,
    /// The error, where the library has placed it.
    failure: Option<&'o [u8]>,
}

/// All of a response but its items.
#[derive(Clone, Copy, Debug, PartialEq, Eq)]
pub struct End<'a> {
    /// The strings ahead of the status: two for COMMAND, none for RESULTS and FULL, one for all
    /// others; those that are not taken are empty.
    pub texts: [&'a [u8]; 2],
    /// 00, or 01 where the request has failed.
    pub status: u8,
    /// The string behind status 01; empty behind 00, and for COMMAND, CREATE, ADD, PUT and
    /// PUTBINARY, whose last text is the error.
    pub error: &'a [u8],
}

impl<'o> Response<'_, 'o> {
    /// The error where the request has failed, wherever its kind has it: behind the status, or for
    /// COMMAND, CREATE, ADD, PUT and PUTBINARY as the last text.
    ///
    /// ```
    /// use keddorimp::basex::{read_response, Kind};
    ///
    /// let mut out = [0; 16];
    /// let (response, _) = read_response(Kind::COMMAND, b"\0no db\0\x01", &mut out)?;
    /// assert_eq!(response.failure(), Some(&b"no db"[..]));
    /// let (response, _) = read_response(Kind::COMMAND, b"\0done\0\x00", &mut out)?;
    /// assert_eq!(response.failure(), None);
    /// let (response, _) = read_response(Kind::QUERY, b"\0\x01stopped\0", &mut out)?;
    /// assert_eq!(response.failure(), Some(&b"stopped"[..]));
    /// # Ok::<(), keddorimp::Refusal>(())
    /// ```
    pub fn failure(&self) -> Option<&'o [u8]> {
        self.failure
    }
}

/// Reads the response at the front of the bytes to a request of the kind, its texts into the
/// output: the response, and how many bytes were read.
///
/// Refused with 1, 2 for a byte that starts no request, 8 and 13, and with 10 for an output that is
/// too short for the texts.
///
/// All of it has to be there, and is judged from the front at every call. A response to RESULTS or
/// FULL that is long, or comes in pieces, is taken item by item with
/// [`read_item`](super::read_item) instead; then this reads what stands behind the items.
///
/// ```
/// use keddorimp::basex::{read_response, Item, Kind};
///
/// let mut out = [0; 16];
/// let (response, count) = read_response(Kind::RESULTS, b"\x341\0\x342\0\0\0", &mut out)?;
/// let items: Vec<_> = response.items.clone().collect();
/// assert_eq!(items[0], Item { id: 52, uri: None, text: b"1" });
/// assert_eq!((items.len(), response.failure(), count), (2, None, 8));
/// # Ok::<(), keddorimp::Refusal>(())
/// ```
pub fn read_response<'b, 'o>(
    kind: Kind,
    bytes: &'b [u8],
    out: &'o mut [u8],
) -> Result<(Response<'b, 'o>, usize), Refusal> {
    let (count, told) = raw::read_response(kind.0, bytes, out)?;
    let out: &[u8] = out;
    let failure = raw::error(kind.0, &told)?.map(|[start, len]| &out[start..][..len]);
    let [first, second, items, listed, status, error] = told.map(|number| number as usize);
    let mut rest = out;
    let texts = [first, second].map(|len| split(&mut rest, len));
    let items = Items::new(kind, bytes, split(&mut rest, listed), items);
    let end = End { texts, status: status as u8, error: split(&mut rest, error) };
    Ok((Response { kind, items, end, failure }, count))
}
