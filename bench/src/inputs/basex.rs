//! BaseX requests and responses, sound and damaged, to be read, to be written and to be timed. They
//! are put together by an encoder of their own.

mod requests;
mod responses;
mod sets;

use super::strings::{self, drawn, noise, text};
use super::Rng;

pub use requests::{requests, requests_read, Asked};
pub use responses::{responses, responses_read, Answered, Listed};
pub use sets::{large_answer, large_request, listings, small_requests};

/// A kind of request: its first byte, its strings, those ahead of the status in its response (none
/// where items stand there), and whether an error may stand behind the status.
pub const KINDS: [(u8, usize, usize, bool); 15] = [
    (QUERY, 1, 1, true),
    (0x02, 1, 1, true),
    (BIND, 4, 1, true),
    (RESULTS, 1, 0, true),
    (0x05, 1, 1, true),
    (0x06, 1, 1, true),
    (0x07, 1, 1, true),
    (0x08, 2, 1, false),
    (ADD, 2, 1, false),
    (0x0C, 2, 1, false),
    (0x0D, 2, 1, false),
    (0x0E, 3, 1, true),
    (0x1E, 1, 1, true),
    (FULL, 1, 0, true),
    (COMMAND, 1, 2, false),
];

pub const QUERY: u8 = 0x00;
pub const BIND: u8 = 0x03;
pub const RESULTS: u8 = 0x04;
pub const ADD: u8 = 0x09;
pub const FULL: u8 = 0x1F;
/// Every byte from here to FE starts a command.
pub const COMMAND: u8 = 0x20;

/// The kind with this first byte.
pub fn known(first: u8) -> Option<(u8, usize, usize, bool)> {
    let kind = if (COMMAND..0xFF).contains(&first) { COMMAND } else { first };
    KINDS.into_iter().find(|row| row.0 == kind)
}

/// A first byte: of every kind, those with items more often, now and then of none.
fn first_byte(rng: &mut Rng) -> u8 {
    match rng.below(20) {
        0 => rng.pick(&[0x01, 0x0A, 0x0B, 0x0F, 0x1D, 0xFF]),
        1..=3 => rng.pick(&[RESULTS, FULL]),
        4 | 5 => rng.between(COMMAND.into(), 0xFE) as u8,
        _ => rng.pick(&KINDS).0,
    }
}

/// A text, two of three short.
fn any_text(rng: &mut Rng) -> Vec<u8> {
    match rng.below(3) {
        0 => drawn(rng),
        _ => short_text(rng),
    }
}

fn short_text(rng: &mut Rng) -> Vec<u8> {
    let (length, density) = (rng.below(6), rng.pick(&[0, 1, 3]));
    text(rng, length, density)
}

/// Every cut of the bytes, and each byte as another one.
fn near(bytes: &[u8]) -> Vec<Vec<u8>> {
    let mut near: Vec<_> = (0..=bytes.len()).map(|end| bytes[..end].to_vec()).collect();
    for at in 0..bytes.len() {
        for byte in [0, 1, 2, 0x0C, 0xFF, bytes[at] ^ 1] {
            let mut other = bytes.to_vec();
            other[at] = byte;
            near.push(other);
        }
    }
    near
}

/// Perhaps damaged, and perhaps with bytes behind.
fn offered(rng: &mut Rng, mut bytes: Vec<u8>, damaged: bool) -> Vec<u8> {
    if damaged {
        for _ in 0..rng.pick(&[1, 1, 2]) {
            strings::damage(rng, &mut bytes);
        }
    }
    let behind = rng.pick(&[0, 0, 1, 40]);
    bytes.extend(noise(rng, behind));
    bytes
}

/// All bytes of up to `longest` letters of an alphabet.
fn words(alphabet: &[u8], longest: usize) -> Vec<Vec<u8>> {
    let mut words = vec![vec![]];
    let mut from = 0;
    for _ in 0..longest {
        let to = words.len();
        for k in from..to {
            for &letter in alphabet {
                words.push([&words[k][..], &[letter]].concat());
            }
        }
        from = to;
    }
    words
}

#[cfg(test)]
mod tests {
    use super::*;
    use crate::plain::basex::kind::{strings, Form};

    #[test]
    fn the_table_is_that_of_the_reader() {
        for first in 0..=0xFF {
            let row = known(first);
            assert_eq!(row.map(|row| row.1), strings(first));
            assert_eq!(row.map(|row| row.2), Form::of(first).map(Form::texts));
            assert_eq!(row.map(|row| row.3), Form::of(first).map(|form| form.has_error(1)));
        }
    }

    #[test]
    fn words_of_two_letters() {
        assert_eq!(words(&[7, 8], 2), [&[][..], &[7], &[8], &[7, 7], &[7, 8], &[8, 7], &[8, 8]]);
    }
}
