//! BaseX items read one by one: each call against plain Rust, and responses that come in pieces
//! against the same ones read at once.

use crate::lent::{fill, hex, holds};
use crate::responses::sound;
use crate::rng::Rng;
use crate::tally::Tally;
use crate::texts::{damage, kind, put_behind, room, words};
use bench::plain::basex::{self as plain, bytes as strings};
use bench::plain::refusal::NO_ROOM;
use keddorimp::basex::{read_item, read_response, Item, Kind};
use keddorimp::Refusal;

const CALLS: usize = 100_000;
const STREAMS: usize = 20_000;

pub fn calls() -> Tally {
    let mut rng = Rng::new(7);
    let mut tally = Tally::new("BaseX items read");
    let mut out = Vec::new();
    for k in 0..CALLS {
        let asked = if rng.one_in(4) { kind(&mut rng) } else { rng.pick(&[0x04, 0x1F]) };
        let bytes = received(&mut rng, asked, k % 2 == 1);
        tally.count(&call(&mut rng, asked, &bytes, &mut out));
    }
    for kind in [0x00, 0x01, 0x04, 0x1F] {
        for bytes in words(&[0x00, 0x0C, 0x10, 0x34, 0xFF], 5) {
            tally.count(&call(&mut rng, kind, &bytes, &mut out));
        }
    }
    tally.complete(&[1, 2, 8, 10, 13])
}

/// A response to a request of the kind, with bytes behind it now and then.
fn received(rng: &mut Rng, kind: u8, damaged: bool) -> Vec<u8> {
    let mut bytes = sound(rng, kind);
    put_behind(rng, &mut bytes);
    if damaged {
        damage(rng, &mut bytes);
    }
    bytes
}

/// The answer of both, and every byte of the output.
fn call(rng: &mut Rng, kind: u8, bytes: &[u8], out: &mut Vec<u8>) -> Result<usize, u8> {
    // No text is longer than its string.
    let mut texts = vec![0; bytes.len()];
    let plain = first(kind, bytes, &mut texts);
    let read = plain.unwrap_or_default();
    let stored = read.map_or(vec![], |(item, _)| [item.uri.unwrap_or(b""), item.text].concat());
    let room = room(rng, stored.len());
    let plain = if room < stored.len() { Err(NO_ROOM) } else { plain };
    fill(out, room);
    let ours = read_item(Kind(kind), bytes, &mut out[..room]).map_err(Refusal::number);
    assert_eq!(ours, plain, "to {kind:02X} into {room}: {}", hex(bytes));
    let stored = if plain.is_ok() { &stored[..] } else { &[] };
    assert!(holds(out, stored), "to {kind:02X} into {room}: {}", hex(bytes));
    plain.map(|item| item.map_or(0, |(_, count)| count))
}

/// The first item as plain Rust reads it, into an output that is long enough.
fn first<'o>(kind: u8, bytes: &[u8], out: &'o mut [u8]) -> Result<Option<(Item<'o>, usize)>, u8> {
    let Some(item) = plain::item(kind, bytes, 0)? else { return Ok(None) };
    let (mut at, to) = (1, item.uri.unwrap_or(0));
    if item.uri.is_some() {
        at = strings::decode(bytes, at, out, 0)?.next;
    }
    strings::decode(bytes, at, out, to)?;
    let (uri, texts) = out.split_at(to);
    let uri = item.uri.map(|_| uri);
    Ok(Some((Item { id: item.id, uri, text: &texts[..item.text] }, item.next)))
}

/// A response as it is kept: id, URI and text of each item, status and error, and its bytes.
type Kept = (Vec<(u8, Option<Vec<u8>>, Vec<u8>)>, u8, Vec<u8>, usize);

/// In pieces and at once a response is the same, or is refused alike.
pub fn streams() -> Tally {
    let mut rng = Rng::new(8);
    let mut tally = Tally::new("BaseX responses in pieces");
    for k in 0..STREAMS {
        let kind = rng.pick(&[Kind::RESULTS, Kind::FULL]);
        let bytes = received(&mut rng, kind.0, k % 2 == 1);
        let whole = at_once(kind, &bytes);
        assert_eq!(in_pieces(&mut rng, kind, &bytes), whole, "to {kind}: {}", hex(&bytes));
        tally.count(&whole.map_err(Refusal::number));
    }
    tally.complete(&[1, 8, 13])
}

fn at_once(kind: Kind, bytes: &[u8]) -> Result<Kept, Refusal> {
    let mut out = vec![0; bytes.len()];
    let (response, count) = read_response(kind, bytes, &mut out)?;
    let end = response.end;
    Ok((response.items.map(kept).collect(), end.status, end.error.to_vec(), count))
}

fn in_pieces(rng: &mut Rng, kind: Kind, bytes: &[u8]) -> Result<Kept, Refusal> {
    let longest = rng.pick(&[1, 3, 30, 3_000]);
    let mut stream = Stream { bytes, taken: 0, come: 0, longest };
    let mut items = Vec::new();
    while let Some(item) = stream.read(rng, |held, out| {
        let read = read_item(kind, held, out)?;
        Ok(read.map_or((None, 0), |(item, count)| (Some(kept(item)), count)))
    })? {
        items.push(item);
    }
    let (left, status, error, _) = stream.read(rng, |held, _| {
        let left = at_once(kind, held)?;
        let count = left.3;
        Ok((left, count))
    })?;
    assert!(left.is_empty(), "items behind the last");
    Ok((items, status, error, stream.taken))
}

fn kept(item: Item) -> (u8, Option<Vec<u8>>, Vec<u8>) {
    (item.id, item.uri.map(<[u8]>::to_vec), item.text.to_vec())
}

/// Bytes that come in pieces.
struct Stream<'a> {
    bytes: &'a [u8],
    taken: usize,
    come: usize,
    /// Of a piece.
    longest: usize,
}

impl Stream<'_> {
    /// Reads from what has come and was not taken; at a 1 another piece comes, while there are any.
    fn read<T>(
        &mut self,
        rng: &mut Rng,
        read: impl Fn(&[u8], &mut [u8]) -> Result<(T, usize), Refusal>,
    ) -> Result<T, Refusal> {
        loop {
            let held = &self.bytes[self.taken..self.come];
            match read(held, &mut vec![0; held.len()]) {
                Ok((value, count)) => {
                    self.taken += count;
                    return Ok(value);
                }
                Err(Refusal::MoreBytes) if self.come < self.bytes.len() => {
                    let left = self.bytes.len() - self.come;
                    self.come += rng.between(1, self.longest.min(left));
                }
                Err(refusal) => return Err(refusal),
            }
        }
    }
}
