//! Writing, one function for each shape of a body. What all of them have in common stands in the
//! documentation of the module above, where it is seen.

use super::Instruction;
use crate::raw::sedna as raw;
use crate::refusal::Refusal;

/// Writes a message without a body.
///
/// Refused with 2, 8 and 10, [in this order](super#writing).
pub fn write_empty(out: &mut [u8], instruction: Instruction) -> Result<&[u8], Refusal> {
    let count = raw::write_empty(out, instruction.0)?;
    Ok(&out[..count])
}

/// Writes SessionParameters; `version` is major and minor.
///
/// Refused with 2, 8, 11 and 10, [in this order](super#writing).
pub fn write_session<'o>(
    out: &'o mut [u8],
    instruction: Instruction,
    version: [u8; 2],
    user: &[u8],
    database: &[u8],
) -> Result<&'o [u8], Refusal> {
    let count = raw::write_session(out, instruction.0, version, user, database)?;
    Ok(&out[..count])
}

/// Writes a message that is one string.
///
/// Refused with 2, 8, 11 and 10, [in this order](super#writing).
pub fn write_text<'o>(
    out: &'o mut [u8],
    instruction: Instruction,
    text: &[u8],
) -> Result<&'o [u8], Refusal> {
    let count = raw::write_text(out, instruction.0, text)?;
    Ok(&out[..count])
}

/// Writes Execute or ExecuteLong; a long statement is written by a [`Cut`](super::Cut).
///
/// Refused with 2, 8, 11 and 10, [in this order](super#writing).
pub fn write_statement<'o>(
    out: &'o mut [u8],
    instruction: Instruction,
    format: u8,
    text: &[u8],
) -> Result<&'o [u8], Refusal> {
    let count = raw::write_statement(out, instruction.0, format, text)?;
    Ok(&out[..count])
}

/// Writes a message that is a code and a string.
///
/// Refused with 2, 8, 11 and 10, [in this order](super#writing).
pub fn write_coded<'o>(
    out: &'o mut [u8],
    instruction: Instruction,
    code: u32,
    text: &[u8],
) -> Result<&'o [u8], Refusal> {
    let count = raw::write_coded(out, instruction.0, code, text)?;
    Ok(&out[..count])
}

/// Writes SetOptions. Option k has `ids[k]` and the next `lengths[k]` bytes of `values`, in which
/// the values stand one behind the other; lists that do not belong together are refused with 8.
///
/// Refused with 2, 8, 11 and 10, [in this order](super#writing).
pub fn write_options<'o>(
    out: &'o mut [u8],
    instruction: Instruction,
    ids: &[u32],
    lengths: &[usize],
    values: &[u8],
) -> Result<&'o [u8], Refusal> {
    let count = raw::write_options(out, instruction.0, ids, lengths, values)?;
    Ok(&out[..count])
}

/// Writes ItemStart; a long item is written by a [`Cut`](super::Cut). Without a URL the flag is 0;
/// `Some(b"")` is the flag 1 and an empty URL.
///
/// Refused with 2, 8, 11 and 10, [in this order](super#writing).
///
/// ```
/// use keddorimp::sedna::{write_item, Instruction};
///
/// let mut out = [0; 32];
/// let none = write_item(&mut out, Instruction::ITEM_START, 1, 25, None, b"x")?.to_vec();
/// assert_eq!(none[8..], [1, 25, 0, 0, 0, 0, 0, 1, b'x']);
/// let empty = write_item(&mut out, Instruction::ITEM_START, 1, 25, Some(b""), b"x")?;
/// assert_eq!(empty[8..], [1, 25, 1, 0, 0, 0, 0, 0, 0, 0, 0, 0, 1, b'x']);
/// # Ok::<(), keddorimp::Refusal>(())
/// ```
pub fn write_item<'o>(
    out: &'o mut [u8],
    instruction: Instruction,
    class: u8,
    kind: u8,
    url: Option<&[u8]>,
    part: &[u8],
) -> Result<&'o [u8], Refusal> {
    let count = match url {
        None => raw::write_item(out, instruction.0, [class, kind], part)?,
        Some(url) => raw::write_item_url(out, instruction.0, [class, kind], url, part)?,
    };
    Ok(&out[..count])
}
