//! Writing responses, item by item.

use super::{End, Item, Kind};
use crate::raw::basex as raw;
use crate::refusal::Refusal;

/// Writes the response to a request into a lent output: its items one after another, where it has
/// any, and then its end.
///
/// ```
/// use keddorimp::basex::{End, Item, Kind, ResponseWriter};
///
/// let mut out = [0; 16];
/// let mut writer = ResponseWriter::new(Kind::RESULTS, &mut out);
/// writer.item(&Item { id: 52, uri: None, text: b"1" })?;
/// writer.item(&Item { id: 52, uri: None, text: b"2" })?;
/// let end = End { texts: [b"", b""], status: 0, error: b"" };
/// assert_eq!(writer.end(&end)?, b"\x341\0\x342\0\0\0");
/// # Ok::<(), keddorimp::Refusal>(())
/// ```
#[derive(Debug)]
pub struct ResponseWriter<'o> {
    kind: Kind,
    out: &'o mut [u8],
    /// The bytes of the items so far.
    at: usize,
}

impl<'o> ResponseWriter<'o> {
    /// Starts the response to a request of the kind.
    pub fn new(kind: Kind, out: &'o mut [u8]) -> Self {
        Self { kind, out, at: 0 }
    }

    /// Writes an item behind those before; the answer is what was written.
    ///
    /// Refused with 2 for a byte that starts no request, 8 for values that are not allowed, for a
    /// URI, even an empty one, where the item has none, for none where it has one and for a kind of
    /// request whose response has no items, and 10 for an output that is too short, in this order.
    /// A refused item is left out, and the writing can go on.
    ///
    /// ```
    /// use keddorimp::basex::{Item, Kind, ResponseWriter};
    /// use keddorimp::Refusal;
    ///
    /// let mut out = [0; 16];
    /// let mut writer = ResponseWriter::new(Kind::FULL, &mut out);
    /// let mut write = |id, uri| writer.item(&Item { id, uri, text: b"a" }).map(<[u8]>::to_vec);
    /// // 12 has a URI, and 52 has none.
    /// assert_eq!(write(12, Some(b"")), Ok(b"\x0C\0a\0".to_vec()));
    /// assert_eq!(write(12, None), Err(Refusal::ValueNotAllowed));
    /// assert_eq!(write(52, None), Ok(b"\x34a\0".to_vec()));
    /// assert_eq!(write(52, Some(b"")), Err(Refusal::ValueNotAllowed));
    /// ```
    pub fn item(&mut self, item: &Item<'_>) -> Result<&[u8], Refusal> {
        let Item { id, uri, text } = *item;
        let uri = match (uri, raw::takes_uri(self.kind.0, id)) {
            (Some(uri), taken) => taken.map(|()| uri)?,
            (None, Ok(())) => return Err(Refusal::ValueNotAllowed),
            (None, Err(_)) => &[],
        };
        let start = self.at;
        self.at += raw::write_item(self.out, start, self.kind.0, id, uri, text)?;
        Ok(&self.out[start..self.at])
    }

    /// Writes the end behind the items; the answer is the whole response.
    ///
    /// Refused with 2 for a byte that starts no request, 8 for a status above 01 and for texts that
    /// such a response does not have, and 10 for an output that is too short, in this order. The
    /// writer is then gone too, and the response is written anew.
    pub fn end(self, end: &End<'_>) -> Result<&'o [u8], Refusal> {
        let End { texts, status, error } = *end;
        let count = raw::write_end(self.out, self.at, self.kind.0, texts, status, error)?;
        Ok(&self.out[..self.at + count])
    }
}
