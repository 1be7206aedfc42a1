//! Joining the parts of statements and items.

use super::{value, Side, Value};
use crate::raw::parts::{self as raw, Record};
use crate::refusal::Refusal;
use core::fmt;

/// What is gathered.
#[derive(Clone, Copy, Debug, PartialEq, Eq, Hash)]
#[repr(u8)]
pub enum Gathering {
    /// A statement.
    Statement = 1,
    /// An item up to version 3.0.
    Item = 2,
    /// An item of version 4.0.
    TypedItem = 3,
}

impl fmt::Display for Gathering {
    fn fmt(&self, f: &mut fmt::Formatter<'_>) -> fmt::Result {
        f.pad(match self {
            Self::Statement => "statement",
            Self::Item => "item up to 3.0",
            Self::TypedItem => "item of 4.0",
        })
    }
}

/// What a message that was joined has done: it was a part, or all is there now. The text is then
/// the front part of the lent buffer.
#[derive(Clone, Copy, Debug, PartialEq, Eq)]
pub enum Joined<'b> {
    /// A part; more is to come.
    Part,
    /// A statement is whole.
    Statement {
        /// That of its first part.
        format: u8,
        /// All of it.
        text: &'b [u8],
    },
    /// An item up to version 3.0 is whole.
    Item {
        /// All of it.
        text: &'b [u8],
    },
    /// An item of version 4.0 is whole. A URL is not gathered: it stands in the ItemStart, as a
    /// [`Body::Item`](super::Body::Item).
    TypedItem {
        /// Its class.
        class: u8,
        /// Its type.
        kind: u8,
        /// All of it.
        text: &'b [u8],
    },
}

/// Joins the messages of a statement or an item, in place in a buffer that the caller lends to each
/// call.
///
/// An assembly is the record alone, so that it can be kept beside its buffer in one struct, and
/// what is whole borrows the buffer and not the assembly:
///
/// ```
/// use keddorimp::sedna::{Assembly, Gathering, Joined, Side};
///
/// struct Gateway {
///     assembly: Assembly,
///     buffer: Vec<u8>,
/// }
///
/// let mut gateway = Gateway { assembly: Assembly::new(), buffer: vec![0; 100] };
/// let start = [0, 0, 1, 99, 0, 0, 0, 10, 2, 61, 0, 0, 0, 0, 0, 2, b'4', b'2'];
/// let end = [0, 0, 1, 114, 0, 0, 0, 0];
/// gateway.assembly.open(Gathering::TypedItem);
/// let (joined, _) = gateway.assembly.join(&mut gateway.buffer, Side::Server, &start)?;
/// assert_eq!(joined, Joined::Part);
/// let (joined, _) = gateway.assembly.join(&mut gateway.buffer, Side::Server, &end)?;
/// // The next one is open before this one is used.
/// gateway.assembly.open(Gathering::TypedItem);
/// assert_eq!(joined, Joined::TypedItem { class: 2, kind: 61, text: b"42" });
/// # Ok::<(), keddorimp::Refusal>(())
/// ```
///
/// From the opening to the end the same buffer is lent, and left alone between the calls: what is
/// gathered is what stands in it. A copy of an assembly goes with a copy of its buffer.
#[derive(Clone, Debug, Default, PartialEq, Eq)]
pub struct Assembly {
    record: Record,
}

impl Assembly {
    /// An assembly with nothing open: every message that reads well is refused with 9.
    pub fn new() -> Self {
        Self::default()
    }

    /// Opens a gathering. What an earlier one held, spoilt or unfinished, is dropped.
    pub fn open(&mut self, what: Gathering) {
        self.record = raw::open(what as u64);
    }

    /// Whether a part was taken, and no end yet.
    ///
    /// It is false from an opening to the first part that is taken, and again behind the end, which
    /// closes the gathering. A refused message does not change it, even with 12: where the very
    /// first part found no room it is still false, so who goes on behind a 12 keeps that in mind up
    /// to the next opening.
    ///
    /// ```
    /// use keddorimp::sedna::{read, Assembly, Gathering, Instruction, Joined, Side};
    /// use keddorimp::Refusal;
    ///
    /// /// The item that this message of a delivery ends, if any.
    /// fn deliver<'b>(
    ///     assembly: &mut Assembly,
    ///     buffer: &'b mut [u8],
    ///     bytes: &[u8],
    /// ) -> Result<Option<&'b [u8]>, Refusal> {
    ///     let (message, _) = read(Side::Server, bytes)?;
    ///     if message.instruction == Instruction::RESULT_END && !assembly.begun() {
    ///         return Ok(None); // ResultEnd alone
    ///     }
    ///     match assembly.join(buffer, Side::Server, bytes)? {
    ///         (Joined::Item { text }, _) => Ok(Some(text)),
    ///         _ => Ok(None),
    ///     }
    /// }
    ///
    /// let (mut assembly, mut buffer) = (Assembly::new(), [0; 100]);
    /// let part = [0, 0, 1, 104, 0, 0, 0, 7, 0, 0, 0, 0, 2, b'4', b'2'];
    /// let end = [0, 0, 1, 119, 0, 0, 0, 0];
    /// assembly.open(Gathering::Item);
    /// assert_eq!(deliver(&mut assembly, &mut buffer, &part)?, None);
    /// assert_eq!(deliver(&mut assembly, &mut buffer, &end)?, Some(&b"42"[..]));
    /// // Asked again, the server answers with ResultEnd alone.
    /// assembly.open(Gathering::Item);
    /// assert_eq!(deliver(&mut assembly, &mut buffer, &end)?, None);
    /// # Ok::<(), Refusal>(())
    /// ```
    pub fn begun(&self) -> bool {
        let [_, begun, ..] = self.record;
        begun == 1
    }

    /// Joins the message at the front of `bytes`, which `side` sent, to what the buffer holds: what
    /// it has done, and how many bytes it has. The message that ends a gathering closes it.
    ///
    /// A statement ends with LongQueryEnd, or is an Execute, part and end at once; an item ends
    /// with ItemEnd or ResultEnd. An end before any part is refused with 9, and a ResultEnd that
    /// answers alone is such an end, though a good message: no item comes with it. So ask
    /// [`begun`](Self::begun) before a ResultEnd is joined.
    ///
    /// Refused with 1 to 8 as [reading](super::read) is, with 9 for a message that the gathering
    /// does not take there, and with 12 where the buffer is too short. After a 12 the gathering is
    /// spoilt, and all its parts and its end are refused with 12, until a new one is opened.
    ///
    /// A longer buffer is as good as the one before, if the same stands at its front. One that is
    /// shorter than what was gathered is too short for every part, even an empty one, and for the
    /// end. Any other buffer is taken for the same one: what is handed out then is its front part,
    /// whatever stood there.
    pub fn join<'b>(
        &mut self,
        buffer: &'b mut [u8],
        side: Side,
        bytes: &[u8],
    ) -> Result<(Joined<'b>, usize), Refusal> {
        let (count, told) = raw::join(&mut self.record, buffer, side as u8, bytes)?;
        Ok((Joined::told(buffer, told), count))
    }
}

impl<'b> Joined<'b> {
    /// What a whole item of version 4.0 means by its type, as [`value`](super::value()) reads it,
    /// and refused as there. `None` for what is none: a part, a statement, and an item up to 3.0,
    /// which has no type.
    ///
    /// ```
    /// use keddorimp::sedna::{Assembly, Gathering, Side, Value};
    ///
    /// let (mut assembly, mut buffer) = (Assembly::new(), [0; 100]);
    /// let start = [0, 0, 1, 99, 0, 0, 0, 9, 1, 24, 0, 0, 0, 0, 0, 1, b'4'];
    /// let part = [0, 0, 1, 104, 0, 0, 0, 6, 0, 0, 0, 0, 1, b'2'];
    /// let end = [0, 0, 1, 114, 0, 0, 0, 0];
    /// assembly.open(Gathering::TypedItem);
    /// let mut value = None;
    /// for message in [&start[..], &part, &end] {
    ///     let (joined, _) = assembly.join(&mut buffer, Side::Server, message)?;
    ///     value = joined.value()?;
    /// }
    /// assert_eq!(value, Some(Value::Whole(42)));
    /// # Ok::<(), keddorimp::Refusal>(())
    /// ```
    pub fn value(&self) -> Result<Option<Value>, Refusal> {
        match *self {
            Self::TypedItem { class, kind, text } => value(class, kind, text).map(Some),
            Self::Part | Self::Statement { .. } | Self::Item { .. } => Ok(None),
        }
    }

    /// What the four numbers tell.
    fn told(buffer: &'b [u8], [what, len, a, b]: [usize; 4]) -> Self {
        let text = &buffer[..len];
        match what {
            0 => Self::Part,
            1 => Self::Statement { format: a as u8, text },
            2 => Self::Item { text },
            3 => Self::TypedItem { class: a as u8, kind: b as u8, text },
            _ => unreachable!("the archives know three gatherings"),
        }
    }
}
