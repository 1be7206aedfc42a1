//! The items of a response.

use super::request::split;
use super::Kind;
use crate::raw::basex as raw;
use crate::refusal::Refusal;
use core::iter::FusedIterator;

/// An item of a response to RESULTS or FULL.
#[derive(Clone, Copy, Debug, PartialEq, Eq)]
pub struct Item<'a> {
    /// The id of its type, 7 to 15 or 32 to 83.
    pub id: u8,
    /// Its URI: in FULL after the ids 12, 14 and 82, and there `Some(b"")` is an empty one. All
    /// other items have none. Reading and [writing](super::ResponseWriter::item) both keep to this.
    pub uri: Option<&'a [u8]>,
    /// Its text.
    pub text: &'a [u8],
}

impl<'a> Item<'a> {
    /// The item that the three numbers tell, its texts taken off the front.
    fn told(kind: Kind, [id, uri, text]: [usize; 3], texts: &mut &'a [u8]) -> Self {
        let (id, uri, text) = (id as u8, split(texts, uri), split(texts, text));
        Self { id, uri: has_uri(kind, id).then_some(uri), text }
    }
}

/// Whether an item with this id, which was read, has a URI.
fn has_uri(kind: Kind, id: u8) -> bool {
    raw::takes_uri(kind.0, id).is_ok()
}

/// The items of a response that was read, one after another. They are found in the bytes that were
/// read, and their texts stand in the output.
#[derive(Clone, Debug)]
pub struct Items<'b, 'o> {
    kind: Kind,
    /// The response, as it was read.
    bytes: &'b [u8],
    /// Where the next one starts.
    at: usize,
    /// The decoded texts of those that are left.
    texts: &'o [u8],
    left: usize,
}

impl<'b, 'o> Items<'b, 'o> {
    pub(super) fn new(kind: Kind, bytes: &'b [u8], texts: &'o [u8], count: usize) -> Self {
        Self { kind, bytes, at: 0, texts, left: count }
    }
}

impl<'o> Iterator for Items<'_, 'o> {
    type Item = Item<'o>;

    fn next(&mut self) -> Option<Item<'o>> {
        // Behind the last item stands no item; and where there are none, other fields do.
        self.left = self.left.checked_sub(1)?;
        let read = raw::item(self.kind.0, self.bytes, self.at);
        let (count, numbers) = read.expect("the items were read before");
        self.at += count;
        Some(Item::told(self.kind, numbers, &mut self.texts))
    }

    fn size_hint(&self) -> (usize, Option<usize>) {
        (self.left, Some(self.left))
    }
}

impl ExactSizeIterator for Items<'_, '_> {}

impl FusedIterator for Items<'_, '_> {}

/// Reads the item at the front of the bytes of a response to RESULTS or FULL, its texts into the
/// output: the item, and how many bytes were read; or `None` at the 00 behind the last item.
///
/// So a response of any length can be taken as it comes, with room for one item: an item is read
/// where the one before it ended, and its bytes can be dropped. From the 00 on
/// [`read_response`](super::read_response) of the same kind reads what is left (00, status, error)
/// as a response without items.
///
/// Refused with 1 for no byte, 2 for a byte that starts no request and 8 for a kind of request
/// whose response has no items; then field by field with 8, 13 and 1; and last with 10 for an
/// output that is too short for URI and text together. A 1 says that more bytes may still make an
/// item of it.
///
/// ```
/// use keddorimp::basex::{read_item, read_response, Kind};
/// use keddorimp::Refusal;
///
/// let sent = b"\x0Cu.xml\0<a/>\0\x342\0\0\x01stopped\0";
/// let (mut held, mut out, mut lines) = (Vec::new(), [0; 16], Vec::new());
/// let mut in_items = true;
/// for piece in sent.chunks(3) {
///     held.extend_from_slice(piece);
///     while in_items {
///         match read_item(Kind::FULL, &held, &mut out) {
///             Ok(Some((item, count))) => {
///                 lines.push(format!("item {}, {} bytes", item.id, item.text.len()));
///                 held.drain(..count);
///             }
///             Ok(None) => in_items = false,
///             Err(Refusal::MoreBytes) => break,
///             Err(refusal) => return Err(refusal),
///         }
///     }
/// }
/// assert_eq!(lines, ["item 12, 4 bytes", "item 52, 1 bytes"]);
/// // What is left is small.
/// let (response, count) = read_response(Kind::FULL, &held, &mut out)?;
/// assert_eq!((response.failure(), count), (Some(&b"stopped"[..]), 10));
/// # Ok::<(), Refusal>(())
/// ```
pub fn read_item<'o>(
    kind: Kind,
    bytes: &[u8],
    out: &'o mut [u8],
) -> Result<Option<(Item<'o>, usize)>, Refusal> {
    let (count, numbers) = raw::item(kind.0, bytes, 0)?;
    let [id, uri, _] = numbers;
    if count == 0 {
        return Ok(None);
    }
    // Behind the id stands the text, or the URI and the text. Then the text goes first, behind the
    // place of the URI: where it fits there, the URI does too, so a refusal has stored nothing.
    if has_uri(kind, id as u8) {
        let (behind, _) = raw::string_at(bytes, 1)?;
        raw::decode(bytes, 1 + behind, out, uri)?;
    }
    raw::decode(bytes, 1, out, 0)?;
    Ok(Some((Item::told(kind, numbers, &mut &*out), count)))
}
