//! Sedna messages, sessions, cutting and joining, typed values, and BaseX strings, requests and
//! responses in plain, safe Rust, written from documents 01 and 02 and from nothing of the library:
//! the other side of every comparison.

pub mod basex;
mod cut;
mod gather;
pub mod instruction;
mod read;
mod session;
#[cfg(test)]
mod tests;
pub mod typed;
mod write;

pub use cut::{
    item_parts, statement_parts, typed_item_parts, write_item_part, write_statement_part,
    write_typed_item_part,
};
pub use gather::{Gathered, Gathering, What};
pub use read::read;
pub use session::{Answer, Phase, Session};
pub use write::{
    write, write_coded, write_empty, write_item, write_options, write_session, write_statement,
    write_text,
};

/// The longest body of a message.
pub const BODY_MAX: usize = 10_240;
/// Instruction and body length.
pub const HEAD: usize = 8;

/// The documents' refusal numbers, as far as they are met here.
pub mod refusal {
    pub const MORE_NEEDED: u8 = 1;
    pub const UNKNOWN: u8 = 2;
    pub const OTHER_SIDE: u8 = 3;
    pub const BODY_TOO_LONG: u8 = 4;
    pub const ENDS_INSIDE: u8 = 5;
    pub const STRING_FORMAT: u8 = 6;
    pub const LEFT_OVER: u8 = 7;
    pub const NOT_ALLOWED: u8 = 8;
    pub const OUT_OF_ORDER: u8 = 9;
    pub const NO_ROOM: u8 = 10;
    pub const NO_ENCODING: u8 = 11;
    pub const BUFFER_OVERRUN: u8 = 12;
    pub const BAD_ESCAPE: u8 = 13;
    pub const NO_SUCH_PART: u8 = 14;
    pub const NOT_OF_FORM: u8 = 15;
    pub const OUT_OF_RANGE: u8 = 16;
}

/// The sender of a message, numbered as in a transcript record.
#[derive(Clone, Copy, Debug, PartialEq, Eq)]
#[repr(u8)]
pub enum Side {
    Client = 1,
    Server = 2,
}

/// What the body of an instruction is made of, numbered from 0 as the library
/// numbers it.
#[derive(Clone, Copy, Debug, PartialEq, Eq)]
pub enum Shape {
    Empty,
    Session,
    Text,
    Statement,
    Coded,
    Options,
    Item,
}

/// A message that was read; its fields are parts of the bytes it was read from.
#[derive(Clone, Copy, Debug, PartialEq, Eq)]
pub struct Message<'a> {
    pub instruction: u32,
    pub body: Body<'a>,
    /// Bytes read, the head included.
    pub count: usize,
}

#[derive(Clone, Copy, Debug, PartialEq, Eq)]
pub enum Body<'a> {
    Empty,
    Session { major: u8, minor: u8, user: &'a [u8], database: &'a [u8] },
    Text(&'a [u8]),
    Statement { format: u8, text: &'a [u8] },
    Coded { code: u32, text: &'a [u8] },
    Options(Pairs<'a>),
    Item { class: u8, kind: u8, url: Option<&'a [u8]>, part: &'a [u8] },
}

/// Option pairs that have been checked: their bytes, and how many there are.
#[derive(Clone, Copy, Debug, PartialEq, Eq)]
pub struct Pairs<'a> {
    region: &'a [u8],
    count: usize,
}

impl<'a> Pairs<'a> {
    pub fn region(&self) -> &'a [u8] {
        self.region
    }

    pub fn count(&self) -> usize {
        self.count
    }

    /// The pairs from the first: id and value.
    pub fn iter(&self) -> PairIter<'a> {
        PairIter { rest: self.region }
    }
}

pub struct PairIter<'a> {
    rest: &'a [u8],
}

impl<'a> Iterator for PairIter<'a> {
    type Item = (u32, &'a [u8]);

    fn next(&mut self) -> Option<Self::Item> {
        // The region has been checked: only its end is no pair.
        let (id, value, rest) = read::pair(self.rest).ok()?;
        self.rest = rest;
        Some((id, value))
    }
}

/// A body to be written. Unlike a `Body` it can hold what no message holds.
#[derive(Clone, Copy, Debug)]
pub enum Value<'a> {
    Empty,
    Session {
        major: u8,
        minor: u8,
        user: &'a [u8],
        database: &'a [u8],
    },
    Text(&'a [u8]),
    Statement {
        format: u8,
        text: &'a [u8],
    },
    Coded {
        code: u32,
        text: &'a [u8],
    },
    /// Pair k has `ids[k]` and the next `lengths[k]` bytes of `values`.
    Options {
        ids: &'a [u32],
        lengths: &'a [usize],
        values: &'a [u8],
    },
    Item {
        class: u8,
        kind: u8,
        url: Option<&'a [u8]>,
        part: &'a [u8],
    },
}

/// Who sends an instruction, and the shape of its body: document 01's table.
pub fn entry(instruction: u32) -> Option<(Side, Shape)> {
    use Side::{Client, Server};
    Some(match instruction {
        110 | 210 | 220 | 225 | 302 | 310 | 420 | 451 | 500 | 550 => (Client, Shape::Empty),
        120 => (Client, Shape::Session),
        130 | 410 => (Client, Shape::Text),
        300 | 301 => (Client, Shape::Statement),
        400 => (Client, Shape::Coded),
        530 => (Client, Shape::Options),
        140 | 150 | 160 | 230 | 250 | 255 | 320 | 340 | 370 | 375 | 431 | 440 | 510 | 520 | 540
        | 560 => (Server, Shape::Empty),
        100 | 170 | 240 | 260 | 265 | 325 | 330 | 350 | 450 => (Server, Shape::Coded),
        360 | 430 | 452 => (Server, Shape::Text),
        355 => (Server, Shape::Item),
        _ => return None,
    })
}

fn version_allowed(version: [u8; 2]) -> bool {
    matches!(version, [1..=4, 0])
}

fn format_allowed(format: u8) -> bool {
    format <= 1
}

fn class_allowed(class: u8) -> bool {
    matches!(class, 1..=8)
}

fn kind_allowed(kind: u8) -> bool {
    matches!(kind, 0..=6 | 10..=32 | 41..=61)
}
