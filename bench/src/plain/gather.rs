//! Joining the parts of a statement or an item. Refusals in the order 9 for a message of another
//! kind, 12 once spoilt, 9 out of order, 12; 8 is met in reading already.

use super::instruction::{
    EXECUTE, EXECUTE_LONG, ITEM_END, ITEM_PART, ITEM_START, LONG_QUERY_END, RESULT_END,
};
use super::refusal::{BUFFER_OVERRUN, OUT_OF_ORDER};
use super::{Body, Message};

/// What is gathered, numbered as the library numbers it.
#[derive(Clone, Copy, Debug, PartialEq, Eq)]
pub enum What {
    Nothing,
    Statement,
    Item,
    TypedItem,
}

/// A gathering; its bytes stand at the front of a buffer that is lent to each call.
#[derive(Clone, Copy, Debug, PartialEq, Eq)]
pub struct Gathering {
    pub what: What,
    /// Whether a part was taken.
    pub begun: bool,
    pub held: usize,
    pub spoilt: bool,
    /// Of the first part.
    pub format: u8,
    pub class: u8,
    pub kind: u8,
}

/// What a message that was taken has done: it was a part, or all is there, in the first `len`
/// bytes of the buffer.
#[derive(Clone, Copy, Debug, PartialEq, Eq)]
pub enum Gathered {
    Part,
    Statement { len: usize, format: u8 },
    Item { len: usize },
    TypedItem { len: usize, class: u8, kind: u8 },
}

/// When a part or an end may come.
#[derive(Clone, Copy, PartialEq, Eq)]
enum When {
    First,
    Later,
    Always,
}

impl Gathering {
    pub const CLOSED: Self = Self::open(What::Nothing);

    pub const fn open(what: What) -> Self {
        Self { what, begun: false, held: 0, spoilt: false, format: 0, class: 0, kind: 0 }
    }

    /// Takes a message. Inlined by order, as reading is.
    #[inline(always)]
    pub fn join(&mut self, buffer: &mut [u8], message: &Message) -> Result<Gathered, u8> {
        let (when, end) = self.place(message.instruction).ok_or(OUT_OF_ORDER)?;
        if self.spoilt {
            return Err(BUFFER_OVERRUN);
        }
        let in_order = match when {
            When::First => !self.begun,
            When::Later => self.begun,
            When::Always => true,
        };
        if !in_order {
            return Err(OUT_OF_ORDER);
        }
        let text = match message.body {
            Body::Text(text) | Body::Statement { text, .. } | Body::Item { part: text, .. } => text,
            _ => &[],
        };
        let free = buffer.get_mut(self.held..).and_then(|free| free.get_mut(..text.len()));
        let Some(free) = free else {
            self.spoilt = true;
            return Err(BUFFER_OVERRUN);
        };
        free.copy_from_slice(text);
        self.held += text.len();
        if !self.begun {
            self.begun = true;
            self.name(&message.body);
        }
        if !end {
            return Ok(Gathered::Part);
        }
        let whole = self.whole();
        *self = Self::CLOSED;
        Ok(whole)
    }

    /// When the message may come, and whether it is the last; none for another kind.
    #[inline(always)]
    fn place(&self, instruction: u32) -> Option<(When, bool)> {
        Some(match (self.what, instruction) {
            (What::Statement, EXECUTE) => (When::First, true),
            (What::Statement, EXECUTE_LONG) => (When::Always, false),
            (What::Statement, LONG_QUERY_END) => (When::Later, true),
            (What::Item, ITEM_PART) => (When::Always, false),
            (What::TypedItem, ITEM_START) => (When::First, false),
            (What::TypedItem, ITEM_PART) => (When::Later, false),
            (What::Item | What::TypedItem, ITEM_END | RESULT_END) => (When::Later, true),
            _ => return None,
        })
    }

    /// What the first part says of the whole.
    #[inline(always)]
    fn name(&mut self, first: &Body) {
        match *first {
            Body::Statement { format, .. } => self.format = format,
            Body::Item { class, kind, .. } => (self.class, self.kind) = (class, kind),
            _ => {}
        }
    }

    #[inline(always)]
    fn whole(&self) -> Gathered {
        let Self { held: len, format, class, kind, .. } = *self;
        match self.what {
            What::Nothing => Gathered::Part,
            What::Statement => Gathered::Statement { len, format },
            What::Item => Gathered::Item { len },
            What::TypedItem => Gathered::TypedItem { len, class, kind },
        }
    }
}
