//! Cutting statements and items into messages.

use crate::raw::parts as raw;
use crate::refusal::Refusal;

/// A statement or an item of any length, to be written as messages.
///
/// ```
/// use keddorimp::sedna::{Cut, MESSAGE_MAX};
///
/// let mut out = [0; MESSAGE_MAX];
/// let cut = Cut::Statement { format: 0, text: &[b' '; 10_235] };
/// let mut lengths = Vec::new();
/// for k in 0..cut.parts()? {
///     lengths.push(cut.write_part(k, &mut out)?.len());
/// }
/// // Two times ExecuteLong, and LongQueryEnd.
/// assert_eq!(lengths, [MESSAGE_MAX, 15, 8]);
/// # Ok::<(), keddorimp::Refusal>(())
/// ```
#[derive(Clone, Copy, Debug, PartialEq, Eq)]
pub enum Cut<'a> {
    /// A statement: Execute, or ExecuteLong as often as it takes and LongQueryEnd.
    Statement {
        /// 0 or 1.
        format: u8,
        /// The whole statement.
        text: &'a [u8],
    },
    /// An item up to version 3.0: ItemPart as often as it takes, and once at least. Its end is no
    /// part.
    Item {
        /// The whole item.
        text: &'a [u8],
    },
    /// An item of version 4.0: ItemStart, and ItemPart as often as it takes. Its end is no part.
    TypedItem {
        /// The class, 1 to 8.
        class: u8,
        /// The type, 0 to 6, 10 to 32 or 41 to 61.
        kind: u8,
        /// The URL: `None` writes the flag 0, `Some(b"")` the flag 1 and an empty URL.
        url: Option<&'a [u8]>,
        /// The whole item.
        text: &'a [u8],
    },
}

impl Cut<'_> {
    /// How many messages there are.
    ///
    /// Refused with 11 for a URL of more than 10,227 bytes, which leaves no room. Format, class and
    /// type are judged by [`write_part`](Self::write_part) only.
    pub fn parts(&self) -> Result<usize, Refusal> {
        match *self {
            Self::Statement { text, .. } => Ok(raw::statement_parts(text.len())),
            Self::Item { text } => Ok(raw::item_parts(text.len())),
            Self::TypedItem { url: None, text, .. } => Ok(raw::typed_item_parts(text.len())),
            Self::TypedItem { url: Some(url), text, .. } => {
                raw::typed_item_url_parts(text.len(), url.len())
            }
        }
    }

    /// Writes message number `k`, from 0, into the front of the output; the answer is what was
    /// written.
    ///
    /// Refused with 8 for values that are not allowed, 11 for a URL that leaves no room, 14 behind
    /// the last message, and 10 for an output that is too short, in this order.
    pub fn write_part<'o>(&self, k: usize, out: &'o mut [u8]) -> Result<&'o [u8], Refusal> {
        let count = match *self {
            Self::Statement { format, text } => raw::write_statement_part(out, format, text, k)?,
            Self::Item { text } => raw::write_item_part(out, text, k)?,
            Self::TypedItem { class, kind, url: None, text } => {
                raw::write_typed_item_part(out, [class, kind], text, k)?
            }
            Self::TypedItem { class, kind, url: Some(url), text } => {
                raw::write_typed_item_url_part(out, [class, kind], url, text, k)?
            }
        };
        Ok(&out[..count])
    }
}
