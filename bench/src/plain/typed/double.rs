//! Doubles: an optional sign and one to fifteen digits, with a point among or beside them or with
//! none, divided by the power of ten in one rounding.

use super::super::refusal::{NOT_OF_FORM, OUT_OF_RANGE};
use super::{digits, sign};

const POWERS: [f64; 16] =
    [1e0, 1e1, 1e2, 1e3, 1e4, 1e5, 1e6, 1e7, 1e8, 1e9, 1e10, 1e11, 1e12, 1e13, 1e14, 1e15];

pub fn read(text: &[u8]) -> Result<f64, u8> {
    if let b"INF" | b"-INF" | b"NaN" = text {
        return Err(OUT_OF_RANGE);
    }
    let (minus, rest) = sign(text);
    let (before, rest) = digits(rest);
    let (behind, rest) = match rest {
        [b'.', rest @ ..] => digits(rest),
        _ => (&[][..], rest),
    };
    let count = before.len() + behind.len();
    if count == 0 {
        return Err(NOT_OF_FORM);
    }
    match rest {
        [] if count > 15 => Err(OUT_OF_RANGE),
        [] => {
            let all = before.iter().chain(behind);
            let number = all.fold(0, |n, byte| n * 10 + u64::from(byte - b'0'));
            let quotient = number as f64 / POWERS[behind.len()];
            Ok(if minus { -quotient } else { quotient })
        }
        [b'E' | b'e', exponent @ ..] => match digits(sign(exponent).1) {
            ([_, ..], []) => Err(OUT_OF_RANGE),
            _ => Err(NOT_OF_FORM),
        },
        _ => Err(NOT_OF_FORM),
    }
}
