//! A session: where a conversation stands.

use super::{Message, Side};
use crate::raw::sedna::{self as raw, Fields};
use crate::refusal::Refusal;

/// A conversation from its first message on, in two bytes.
#[derive(Clone, Debug, PartialEq, Eq)]
pub struct Session {
    /// Phase and version; only the library knows what they mean.
    record: [u8; 2],
}

impl Session {
    /// A session in which nothing was sent yet.
    pub fn new() -> Self {
        Self { record: raw::fresh() }
    }

    /// Takes the message at the front of `bytes`, which `side` sent: the message and how many bytes
    /// it has, as [`read`](super::read) tells them.
    ///
    /// Refused with 1 to 8 as reading is, and with 9 where no conversation goes on with the
    /// message; the session is then where it was. Do not offer such a message again: behind a later
    /// request it may be taken as the answer to that.
    ///
    /// In a file BulkLoadError is taken after any number of portions (up to 0.2.0 only in place of
    /// all of them); behind it only BulkLoadFailed or ErrorResponse is.
    pub fn step<'a>(
        &mut self,
        side: Side,
        bytes: &'a [u8],
    ) -> Result<(Message<'a>, usize), Refusal> {
        let mut fields = Fields::default();
        let count = raw::step(&mut self.record, side as u8, bytes, &mut fields)?;
        Ok((Message::told(&fields, bytes), count))
    }

    /// Whose turn it is, so whom to wait for; none where the conversation is over. A turn may have
    /// more than one message.
    ///
    /// At the client's turn the server may still send an ErrorResponse, once StartUp was sent, and
    /// so end the conversation; all else that the side without the turn sends is refused. What it
    /// has sent came ahead of its turn: offer that to [`step`](Self::step) first, and take nothing
    /// from the side at turn before it is judged. At a 1 wait for the rest; at any other refusal
    /// stop. Kept until the turn is that side's, it might pass for the answer to what was asked
    /// later.
    ///
    /// ```
    /// use keddorimp::sedna::{Session, Side};
    ///
    /// let mut session = Session::new();
    /// assert_eq!(session.turn(), Some(Side::Client));
    /// // StartUp, SendSessionParameters, and an ErrorResponse in place of SessionParameters.
    /// session.step(Side::Client, &[0, 0, 0, 110, 0, 0, 0, 0])?;
    /// assert_eq!(session.turn(), Some(Side::Server));
    /// session.step(Side::Server, &[0, 0, 0, 140, 0, 0, 0, 0])?;
    /// assert_eq!(session.turn(), Some(Side::Client));
    /// session.step(Side::Server, &[0, 0, 0, 100, 0, 0, 0, 9, 0, 0, 0, 1, 0, 0, 0, 0, 0])?;
    /// assert_eq!(session.turn(), None);
    /// # Ok::<(), keddorimp::Refusal>(())
    /// ```
    pub fn turn(&self) -> Option<Side> {
        match raw::turn(&self.record) {
            1 => Some(Side::Client),
            2 => Some(Side::Server),
            _ => None,
        }
    }

    /// Whether the conversation is over: from then on every message is refused.
    pub fn closed(&self) -> bool {
        raw::closed(&self.record)
    }
}

impl Default for Session {
    fn default() -> Self {
        Self::new()
    }
}
