//! Typed values, and which of two instants is earlier.

use crate::library::typed::{told, NUMBERS};
use bench::plain::typed::{typed, Instant};
use std::cmp::Ordering;
use std::num::{ParseFloatError, ParseIntError};
use std::str;

/// As `library::typed::value`, for enough numbers.
#[inline(never)]
pub fn value(
    class: u8,
    kind: u8,
    text: &[u8],
    numbers: &mut [i64; NUMBERS],
    real: &mut f64,
) -> Result<usize, u8> {
    let (what, told, double) = told(typed(class, kind, text)?);
    *numbers = told;
    *real = double;
    Ok(what)
}

#[inline(never)]
pub fn compare(a: Instant, b: Instant) -> Ordering {
    a.cmp(&b)
}

/// Rust's own reading of a whole number; 0 where the text is no UTF-8.
#[inline(never)]
pub fn parse_whole(text: &[u8]) -> Result<i64, ParseIntError> {
    str::from_utf8(text).unwrap_or_default().parse()
}

/// Rust's own reading of a double.
#[inline(never)]
pub fn parse_double(text: &[u8]) -> Result<f64, ParseFloatError> {
    str::from_utf8(text).unwrap_or_default().parse()
}
