//! Whole numbers: an optional sign and digits, in their type's range and in 64 bits with a sign.

use super::super::refusal::{NOT_OF_FORM, OUT_OF_RANGE};
use super::sign;

pub fn read(kind: u8, text: &[u8]) -> Result<i64, u8> {
    let (minus, digits) = sign(text);
    if digits.is_empty() {
        return Err(NOT_OF_FORM);
    }
    // Below 0, where the least number has its place; none once it is too large.
    let mut negative = Some(0i64);
    for byte in digits {
        let digit = byte.wrapping_sub(b'0');
        if digit > 9 {
            return Err(NOT_OF_FORM);
        }
        negative = negative.and_then(|n| n.checked_mul(10)?.checked_sub(digit.into()));
    }
    let number = if minus { negative } else { negative.and_then(i64::checked_neg) };
    let (least, greatest) = range(kind);
    number.filter(|n| (least..=greatest).contains(n)).ok_or(OUT_OF_RANGE)
}

fn range(kind: u8) -> (i64, i64) {
    match kind {
        24 | 52 => (i64::MIN, i64::MAX),
        50 => (i64::MIN, 0),
        51 => (i64::MIN, -1),
        53 => (i32::MIN.into(), i32::MAX.into()),
        54 => (i16::MIN.into(), i16::MAX.into()),
        55 => (i8::MIN.into(), i8::MAX.into()),
        56 | 57 => (0, i64::MAX),
        58 => (0, u32::MAX.into()),
        59 => (0, u16::MAX.into()),
        60 => (0, u8::MAX.into()),
        _ => (1, i64::MAX),
    }
}
