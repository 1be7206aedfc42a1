//! BaseX strings, written, and read from sound and damaged bytes.

use crate::encoded::string;
use crate::lent::{fill, hex, holds, Outputs};
use crate::rng::Rng;
use crate::tally::Tally;
use crate::texts::{damage, put_behind, room, text, words};
use bench::plain::basex::{bytes as plain, Place};
use bench::plain::refusal::NO_ROOM;
use keddorimp::basex::{measure_string, read_string, string_len, write_string};
use keddorimp::Refusal;

const READ: usize = 150_000;
const WRITTEN: usize = 50_000;

/// Short strings of these are all tried.
const SHORT: [u8; 3] = [0x00, 0x61, 0xFF];

pub fn run() -> Tally {
    let mut rng = Rng::new(1);
    let mut tally = Tally::new("BaseX strings");
    let mut out = Vec::new();
    for k in 0..READ {
        let mut bytes = string(&text(&mut rng));
        put_behind(&mut rng, &mut bytes);
        if k % 2 == 1 {
            damage(&mut rng, &mut bytes);
        }
        tally.count(&read(&mut rng, &bytes, &mut out));
    }
    for bytes in words(&SHORT, 8) {
        tally.count(&read(&mut rng, &bytes, &mut out));
    }
    let mut outputs = Outputs::default();
    let random: Vec<_> = (0..WRITTEN).map(|_| text(&mut rng)).collect();
    for text in random.into_iter().chain(words(&SHORT, 7)) {
        tally.count(&write(&mut rng, &text, &mut outputs));
    }
    tally.complete(&[1, 10, 13])
}

fn read(rng: &mut Rng, bytes: &[u8], out: &mut Vec<u8>) -> Result<usize, u8> {
    // No text is longer than its string.
    let mut text = vec![0; bytes.len()];
    let plain = plain::decode(bytes, 0, &mut text, 0).map(|Place { len, next }| (len, next));
    let measured = measure_string(bytes).map_err(Refusal::number);
    assert_eq!(measured, plain, "{}", hex(bytes));
    let length = plain.map_or(9, |(length, _)| length);
    let room = room(rng, length);
    let plain = plain.and_then(|read| if length > room { Err(NO_ROOM) } else { Ok(read) });
    fill(out, room);
    let ours = read_string(bytes, &mut out[..room]).map_err(Refusal::number);
    let expected = plain.map(|(length, read)| (&text[..length], read));
    assert_eq!(ours, expected, "into {room} bytes: {}", hex(bytes));
    let stored = expected.map_or(&[][..], |(text, _)| text);
    assert!(holds(out, stored), "into {room} bytes: {}", hex(bytes));
    plain.map(|(_, read)| read)
}

fn write(rng: &mut Rng, text: &[u8], outputs: &mut Outputs) -> Result<usize, u8> {
    let string = string(text);
    assert_eq!(string_len(text), string.len());
    outputs.compare(
        room(rng, string.len()),
        |out| write_string(out, text),
        |out| plain::write_string(out, 0, text),
        || hex(text),
    )
}
