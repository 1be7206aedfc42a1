//! A session: where a conversation stands, and the step that takes it on.

mod error;
mod next;
mod phase;
#[cfg(test)]
mod tests;
mod turn;

use super::refusal::OUT_OF_ORDER;
use super::{read, Body, Message, Side};
use next::next;

pub use phase::Phase;

/// What a step answers: the message at the front of the bytes, or a refusal.
pub type Answer<'a> = Result<Message<'a>, u8>;

#[derive(Clone, Copy, Debug, PartialEq, Eq, PartialOrd, Ord)]
pub struct Session {
    phase: Phase,
    /// The major number; 0 as long as no SessionParameters have named one.
    version: u8,
}

impl Session {
    pub const FRESH: Self = Self { phase: Phase::Fresh, version: 0 };

    /// Takes the message at the front of `bytes`; a refused one changes nothing. Inlined
    /// by order, as reading is.
    #[inline(always)]
    pub fn step<'a>(&mut self, side: Side, bytes: &'a [u8]) -> Answer<'a> {
        let message = read(side, bytes)?;
        self.phase = next(self.phase, self.version, message.instruction).ok_or(OUT_OF_ORDER)?;
        if let Body::Session { major, .. } = message.body {
            self.version = major;
        }
        Ok(message)
    }

    /// Whether the conversation has ended.
    #[inline]
    pub fn closed(&self) -> bool {
        self.phase == Phase::Closed
    }

    /// Who is to send the next message; none where the conversation has ended.
    pub fn turn(&self) -> Option<Side> {
        turn::turn(self.phase)
    }

    pub fn phase(&self) -> Phase {
        self.phase
    }

    pub fn version(&self) -> u8 {
        self.version
    }
}
