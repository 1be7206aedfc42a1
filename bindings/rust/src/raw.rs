//! The archives' functions, and a thin call of each: the one place with `unsafe`.
//!
//! A slice passes as a pointer and a length. Every function is proved to be defined on all inputs,
//! to look only at the slices that it is lent, to store only into those lent to be changed, and to
//! return. So a call is sound where each pointer and length are those of one slice that is borrowed
//! for the call, and what is changed is borrowed alone; Rust's references see to both. The
//! declarations follow `crates/sedna_c`, `crates/parts_c`, `crates/value_c` and `crates/basex_c`,
//! parameter by parameter.

pub mod basex;
mod exports;
pub mod parts;
pub mod sedna;
pub mod value;

use crate::refusal::Refusal;

/// A refusal is told as this with its number on top.
const REFUSED: u64 = 1 << 63;

/// The count that was answered, or the refusal.
fn answer(code: u64) -> Result<usize, Refusal> {
    match code.checked_sub(REFUSED) {
        None => Ok(code as usize),
        Some(number) => Err(Refusal::told(number)),
    }
}

/// The count that was answered and the numbers that were told, or the refusal.
fn told<const N: usize>(code: u64, numbers: [u64; N]) -> Result<(usize, [usize; N]), Refusal> {
    Ok((answer(code)?, numbers.map(|number| number as usize)))
}
