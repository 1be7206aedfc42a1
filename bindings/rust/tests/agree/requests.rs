//! BaseX requests, read from sound and damaged bytes, and written.

use crate::encoded;
use crate::lent::{fill, hex, holds, Outputs};
use crate::rng::Rng;
use crate::tally::Tally;
use crate::texts::{damage, kind, put_behind, room, text, words};
use bench::plain::basex::{self as plain, kind::is_command, kind::strings};
use keddorimp::basex::{read_request, write_request, Kind, Request};
use keddorimp::Refusal;

const READ: usize = 150_000;
const WRITTEN: usize = 70_000;

/// Four texts, as a request is given them.
type Texts = [Vec<u8>; 4];

pub fn read() -> Tally {
    let mut rng = Rng::new(2);
    let mut tally = Tally::new("BaseX requests read");
    let mut out = Vec::new();
    for k in 0..READ {
        let (kind, texts) = sound(&mut rng);
        // A byte that starts no request has no encoding: it stands alone.
        let mut bytes = encoded::request(kind, slices(&texts)).unwrap_or(vec![kind]);
        put_behind(&mut rng, &mut bytes);
        if k % 2 == 1 {
            damage(&mut rng, &mut bytes);
        }
        tally.count(&compare(&mut rng, &bytes, &mut out));
    }
    // Every first byte, with everything short behind it.
    for kind in 0x00..=0xFF {
        for word in words(&[0x00, 0x61, 0xFF], 5) {
            tally.count(&compare(&mut rng, &[&[kind], &word[..]].concat(), &mut out));
        }
    }
    tally.complete(&[1, 2, 10, 13])
}

pub fn write() -> Tally {
    let mut rng = Rng::new(3);
    let mut tally = Tally::new("BaseX requests written");
    let mut outputs = Outputs::default();
    for _ in 0..WRITTEN {
        let (kind, mut texts) = sound(&mut rng);
        if rng.one_in(4) {
            // One that the kind may not take, or how no command starts.
            let k = rng.below(4);
            texts[k] = text(&mut rng);
        }
        let request = Request { kind: Kind(kind), texts: slices(&texts) };
        let bytes = encoded::request(kind, slices(&texts));
        let room = room(&mut rng, bytes.as_ref().map_or(9, Vec::len));
        let answer = outputs.compare(
            room,
            |out| write_request(out, &request),
            |out| plain::write_request(out, kind, slices(&texts)),
            || format!("{request:?}"),
        );
        tally.count(&answer);
    }
    tally.complete(&[2, 8, 10, 11])
}

/// A kind with as many texts as it takes, the others empty.
fn sound(rng: &mut Rng) -> (u8, Texts) {
    let kind = kind(rng);
    let mut texts = Texts::default();
    let taken = strings(kind).unwrap_or(0);
    texts[..taken].fill_with(|| text(rng));
    if is_command(kind) {
        texts[0].insert(0, kind);
    }
    (kind, texts)
}

fn slices(texts: &Texts) -> [&[u8]; 4] {
    texts.each_ref().map(Vec::as_slice)
}

fn compare(rng: &mut Rng, bytes: &[u8], out: &mut Vec<u8>) -> Result<usize, u8> {
    let stored = |request: &plain::Request| request.texts.map(<[u8]>::len).iter().sum::<usize>();
    // No text is longer than its string.
    let mut expected = vec![0; bytes.len()];
    let room = room(rng, plain::read_request(bytes, &mut expected).as_ref().map_or(0, stored));
    fill(&mut expected, room);
    let plain = plain::read_request(bytes, &mut expected[..room]);
    fill(out, room);
    let ours = read_request(bytes, &mut out[..room]).map_err(Refusal::number);
    let told = plain
        .map(|plain::Request { kind, texts, read }| (Request { kind: Kind(kind), texts }, read));
    assert_eq!(ours, told, "into {room} bytes: {}", hex(bytes));
    let (answer, stored) = (plain.map(|request| request.read), plain.as_ref().map_or(0, stored));
    assert!(holds(out, &expected[..stored]), "into {room} bytes: {}", hex(bytes));
    answer
}
