//! Messages, and reading them.

use super::{Instruction, Options, Side};
use crate::raw::sedna::{self as raw, Fields};
use crate::refusal::Refusal;

/// A message that was read; its texts are parts of the bytes that it was read from.
#[derive(Clone, Copy, Debug, PartialEq, Eq)]
pub struct Message<'a> {
    /// What it is.
    pub instruction: Instruction,
    /// What stands in it, by the shape that document 01 gives the instruction.
    pub body: Body<'a>,
}

/// The body of a message, by its shape.
#[derive(Clone, Copy, Debug, PartialEq, Eq)]
pub enum Body<'a> {
    /// Nothing.
    Empty,
    /// SessionParameters.
    Session {
        /// The version, 1 to 4.
        major: u8,
        /// Always 0.
        minor: u8,
        /// The user.
        user: &'a [u8],
        /// The database.
        database: &'a [u8],
    },
    /// One string: AuthenticationParameters, BulkLoadPortion, ItemPart, BulkLoadFileName and
    /// LastQueryTime.
    Text(&'a [u8]),
    /// Execute and ExecuteLong.
    Statement {
        /// 0 or 1.
        format: u8,
        /// The statement, or a part of it.
        text: &'a [u8],
    },
    /// A code and a string: BulkLoadError, ErrorResponse, DebugInfo, and what has failed.
    Coded {
        /// The code.
        code: u32,
        /// What it says.
        text: &'a [u8],
    },
    /// SetOptions.
    Options(Options<'a>),
    /// ItemStart.
    Item {
        /// The class, 1 to 8.
        class: u8,
        /// The type, 0 to 6, 10 to 32 or 41 to 61.
        kind: u8,
        /// The URL: none where the flag is 0, `Some(b"")` for an empty one, where it is 1.
        url: Option<&'a [u8]>,
        /// The first part of the item.
        part: &'a [u8],
    },
}

/// Reads the message at the front of `bytes`, which `side` sent: the message and how many bytes it
/// has. What stands behind it is not touched.
///
/// Refused with 1 to 8.
pub fn read(side: Side, bytes: &[u8]) -> Result<(Message<'_>, usize), Refusal> {
    let mut fields = Fields::default();
    let count = raw::read(side as u8, bytes, &mut fields)?;
    Ok((Message::told(&fields, bytes), count))
}

impl<'a> Message<'a> {
    /// The message that the ten numbers tell.
    pub(super) fn told(fields: &Fields, bytes: &'a [u8]) -> Self {
        let [instruction, shape, a, b, ..] = *fields;
        let (first, second) =
            (part(bytes, fields[4], fields[5]), part(bytes, fields[6], fields[7]));
        let body = match shape {
            0 => Body::Empty,
            1 => Body::Session { major: a as u8, minor: b as u8, user: first, database: second },
            2 => Body::Text(first),
            3 => Body::Statement { format: a as u8, text: first },
            4 => Body::Coded { code: a as u32, text: first },
            5 => Body::Options(Options::told(first, fields[8])),
            6 => {
                let url = (fields[9] == 1).then_some(second);
                Body::Item { class: a as u8, kind: b as u8, url, part: first }
            }
            _ => unreachable!("the archives know seven shapes"),
        };
        Self { instruction: Instruction(instruction as u32), body }
    }
}

/// The bytes of a place.
fn part(bytes: &[u8], start: u64, len: u64) -> &[u8] {
    &bytes[start as usize..][..len as usize]
}
