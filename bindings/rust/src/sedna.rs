//! Sedna's messages, sessions, the cutting and joining of statements and items, and items' values.
//!
//! [`read`] tells what the message at the front of some bytes is, and the writers put one into a
//! lent output. A [`Session`] takes message after message and refuses what no conversation goes on
//! with. A [`Cut`] writes a statement or an item of any length as messages, and an [`Assembly`]
//! joins them again. [`value`] is what an item of version 4.0 means by its type.
//!
//! # Writing
//!
//! There is one writer for each shape of a body, and the instruction has to be one of that shape. A
//! message is put into the front of the lent output whole, or nothing is; the answer is what was
//! written. All writers are refused with 2 for an instruction that document 01's table lacks, 8 for
//! one that has another shape and for values that are not allowed, 11 for a body above 10,240
//! bytes, and 10 for an output that is too short, in this order.
//!
//! ```
//! use keddorimp::sedna::{write_text, Instruction};
//! use keddorimp::Refusal;
//!
//! let (mut out, long) = ([0; 14], [b' '; 10_236]);
//! let mut write = |instruction, text| write_text(&mut out, instruction, text).map(<[u8]>::len);
//! assert_eq!(write(Instruction(361), &long), Err(Refusal::UnknownInstruction));
//! assert_eq!(write(Instruction::EXECUTE, &long), Err(Refusal::ValueNotAllowed));
//! assert_eq!(write(Instruction::ITEM_PART, &long), Err(Refusal::NoEncoding));
//! assert_eq!(write(Instruction::ITEM_PART, b"42"), Err(Refusal::NoRoom));
//! assert_eq!(write(Instruction::ITEM_PART, b"4"), Ok(14));
//! ```

mod assembly;
mod cut;
mod instruction;
mod message;
mod options;
mod session;
mod value;
mod write;

pub use assembly::{Assembly, Gathering, Joined};
pub use cut::Cut;
pub use instruction::Instruction;
pub use message::{read, Body, Message};
pub use options::{Options, Setting, Settings};
pub use session::Session;
pub use value::{value, Instant, Value};
pub use write::{
    write_coded, write_empty, write_item, write_options, write_session, write_statement, write_text,
};

use core::fmt;

/// The longest body of a message.
pub const BODY_MAX: usize = 10_240;

/// The longest message: instruction, body length and body. An output of so many bytes has room for
/// every message and every part of a cut.
pub const MESSAGE_MAX: usize = 8 + BODY_MAX;

/// Who sent a message.
#[derive(Clone, Copy, Debug, PartialEq, Eq, Hash)]
#[repr(u8)]
pub enum Side {
    /// The client.
    Client = 1,
    /// The server.
    Server = 2,
}

impl fmt::Display for Side {
    fn fmt(&self, f: &mut fmt::Formatter<'_>) -> fmt::Result {
        f.pad(match self {
            Self::Client => "client",
            Self::Server => "server",
        })
    }
}
