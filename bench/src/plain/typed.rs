//! What the text of an item means by its type (document 02, request 1): 15 wherever it is not of
//! its type's form, and only then 16.

mod double;
mod instant;
mod whole;

use super::refusal::NOT_OF_FORM;

#[derive(Clone, Copy, Debug, PartialEq)]
pub enum Typed {
    Whole(i64),
    Instant(Instant),
    Truth(bool),
    Double(f64),
}

/// Seconds from 1970-01-01T00:00:00Z, and nanoseconds on top. Ordered by these alone.
#[derive(Clone, Copy, Debug, PartialEq, Eq, PartialOrd, Ord)]
pub struct Instant {
    pub seconds: i64,
    pub nanos: u32,
}

pub fn typed(class: u8, kind: u8, text: &[u8]) -> Result<Typed, u8> {
    if class != 1 {
        return Err(NOT_OF_FORM);
    }
    match kind {
        10 => instant::read(text).map(Typed::Instant),
        22 => double::read(text).map(Typed::Double),
        24 | 50..=61 => whole::read(kind, text).map(Typed::Whole),
        25 => truth(text).map(Typed::Truth),
        _ => Err(NOT_OF_FORM),
    }
}

fn truth(text: &[u8]) -> Result<bool, u8> {
    match text {
        b"true" | b"1" => Ok(true),
        b"false" | b"0" => Ok(false),
        _ => Err(NOT_OF_FORM),
    }
}

/// Whether there is a minus sign, and all behind a sign.
fn sign(text: &[u8]) -> (bool, &[u8]) {
    match text {
        [b'-', rest @ ..] => (true, rest),
        [b'+', rest @ ..] => (false, rest),
        _ => (false, text),
    }
}

/// The digits in front, and the rest.
fn digits(text: &[u8]) -> (&[u8], &[u8]) {
    let none = |byte: &u8| !byte.is_ascii_digit();
    text.split_at(text.iter().position(none).unwrap_or(text.len()))
}
