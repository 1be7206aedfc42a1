//! `libvalue_c.a`: typed values and the order of instants.

use super::answer;
use super::exports::*;
use crate::refusal::Refusal;

/// What the value is (1 a whole number, 2 an instant, 3 a yes or no, 4 a double), its two numbers
/// and its double. Those that it does not use are 0.
#[rustfmt::skip]
pub fn value(class: u8, kind: u8, text: &[u8]) -> Result<(usize, [i64; 2], f64), Refusal> {
    let (mut numbers, mut real) = ([0; 2], [0.0]);
    // SAFETY: the text is a slice borrowed for the call; numbers and double are arrays of this
    // function.
    let code = unsafe {
        kdr_value(
            class, kind, text.as_ptr(), text.len(),
            numbers.as_mut_ptr(), numbers.len(), real.as_mut_ptr(), real.len(),
        )
    };
    Ok((answer(code)?, numbers, real[0]))
}

/// -1 where the first instant is earlier, 0 where they are the same, 1 where it is later.
pub fn compare(a: (i64, u32), b: (i64, u32)) -> i32 {
    // SAFETY: numbers alone.
    unsafe { kdr_compare(a.0, a.1, b.0, b.1) }
}
