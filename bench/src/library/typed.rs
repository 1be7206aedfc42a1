//! Typed values, told as two numbers and a double, and which of two instants is earlier.

use super::answer;
use crate::library::exports::*;
use bench::plain::typed::{Instant, Typed};

/// How many numbers are told, and how many doubles.
pub const NUMBERS: usize = 2;
pub const REALS: usize = 1;

/// What the value is: 1 a whole number, 2 an instant, 3 a truth, 4 a double.
pub fn value(
    class: u8,
    kind: u8,
    text: &[u8],
    numbers: &mut [i64],
    real: &mut [f64],
) -> Result<usize, u8> {
    // SAFETY: pointers and lengths are those of slices that are borrowed for the call.
    answer(unsafe {
        kdr_value(
            class,
            kind,
            text.as_ptr(),
            text.len(),
            numbers.as_mut_ptr(),
            numbers.len(),
            real.as_mut_ptr(),
            real.len(),
        )
    })
}

/// As an `Ordering` is numbered: -1 where the first is earlier, 0 where they are the same, or 1.
pub fn compare(a: Instant, b: Instant) -> i32 {
    // SAFETY: numbers alone.
    unsafe { kdr_compare(a.seconds, a.nanos, b.seconds, b.nanos) }
}

/// What the library answers for a value, and what it tells.
pub fn told(value: Typed) -> (usize, [i64; NUMBERS], f64) {
    match value {
        Typed::Whole(number) => (1, [number, 0], 0.0),
        Typed::Instant(Instant { seconds, nanos }) => (2, [seconds, nanos.into()], 0.0),
        Typed::Truth(truth) => (3, [truth.into(), 0], 0.0),
        Typed::Double(double) => (4, [0, 0], double),
    }
}
