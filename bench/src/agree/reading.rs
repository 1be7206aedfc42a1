//! The readers: acceptance or refusal, its number, and every field.

use super::{hex, Disagreement, Tally};
use crate::library::{self, field, FIELDS};
use bench::inputs::Input;
use bench::plain::{self, Body, Message, Pairs, Shape};

/// More than the library needs, so that writing behind them shows.
pub type Lent = [u64; FIELDS + 2];

/// What stands in lent numbers before a call.
pub const FILL: u64 = 99_999_999_999;

pub fn compare(input: &Input, tally: &mut Tally) -> Result<(), Disagreement> {
    let plain = plain::read(input.side, &input.bytes);
    let mut lent: Lent = [FILL; FIELDS + 2];
    let library = library::read(input.side as u8, &input.bytes, &mut lent);
    let mut expected: Lent = [FILL; FIELDS + 2];
    if let Ok(message) = &plain {
        expected[..FIELDS].copy_from_slice(&flat(&input.bytes, message));
    }
    let plain_answer = plain.map(|message| message.count);
    if library != plain_answer || lent != expected {
        return Err(report(
            input,
            &format!("{plain_answer:?} {expected:?}"),
            &format!("{library:?} {lent:?}"),
        ));
    }
    if let Ok(Message { body: Body::Options(pairs), .. }) = &plain {
        compare_pairs(input, pairs)?;
    }
    tally.reading.add(plain.map(|message| message.instruction));
    Ok(())
}

/// Each pair by its number, and none beyond the last.
fn compare_pairs(input: &Input, pairs: &Pairs) -> Result<(), Disagreement> {
    let bytes = &input.bytes;
    let region = (place(bytes, pairs.region()), pairs.region().len());
    let nothing = [FILL; 4];
    let found = pairs.iter().map(|(id, value)| {
        let start = place(bytes, value) as u64;
        [u64::from(id), start, value.len() as u64, FILL]
    });
    let beyond = [pairs.count(), pairs.count() + 1, usize::MAX];
    let calls = (0..).zip(found.map(|pair| (Ok(1), pair)));
    for (k, expected) in calls.chain(beyond.map(|k| (k, (Ok(0), nothing)))) {
        let mut lent = nothing;
        let answer = library::option(bytes, region, k, &mut lent);
        if (answer, lent) != expected {
            let library = format!("pair {k}: {:?}", (answer, lent));
            return Err(report(input, &format!("pair {k}: {expected:?}"), &library));
        }
    }
    Ok(())
}

/// A side that is none is 8; too few numbers lent for an accepted message, 10.
pub fn bad_calls() -> Result<(), Disagreement> {
    let start_up = [0, 0, 0, 110, 0, 0, 0, 0];
    let calls = [(0, FIELDS, 8, 8), (3, 0, 8, 8), (255, 12, 8, 8), (1, 9, 8, 10), (1, 0, 7, 1)];
    for (side, room, len, refusal) in calls {
        let mut lent = [FILL; 12];
        let answer = library::read(side, &start_up[..len], &mut lent[..room]);
        if answer != Err(refusal) || lent != [FILL; 12] {
            return Err(format!(
                "side {side}, {len} bytes, {room} fields: expected Err({refusal}) and no change\n\
                 library: {answer:?} {lent:?}"
            ));
        }
    }
    Ok(())
}

/// Too few numbers lent for an option are 10; where there is none, none are needed.
pub fn bad_option_calls() -> Result<(), Disagreement> {
    let pair = [0, 0, 0, 1, 0, 0, 0, 0, 1, b'x'];
    let calls = [(0, 0, Err(10)), (0, 2, Err(10)), (1, 0, Ok(0)), (1, 2, Ok(0))];
    for (k, room, expected) in calls {
        let mut lent = [FILL; 3];
        let answer = library::option(&pair, (0, pair.len()), k, &mut lent[..room]);
        if answer != expected || lent != [FILL; 3] {
            return Err(format!("option {k}, {room} fields: {answer:?} {lent:?}"));
        }
    }
    Ok(())
}

/// The numbers by which the library tells this message.
pub fn flat(bytes: &[u8], message: &Message) -> [u64; FIELDS] {
    let at = |part: &[u8]| [place(bytes, part) as u64, part.len() as u64];
    let none = [0, 0];
    let (shape, a, b, first, second) = match message.body {
        Body::Empty => (Shape::Empty, 0, 0, none, none),
        Body::Session { major, minor, user, database } => {
            (Shape::Session, major.into(), minor, at(user), at(database))
        }
        Body::Text(text) => (Shape::Text, 0, 0, at(text), none),
        Body::Statement { format, text } => (Shape::Statement, format.into(), 0, at(text), none),
        Body::Coded { code, text } => (Shape::Coded, code, 0, at(text), none),
        Body::Options(pairs) => (Shape::Options, 0, 0, at(pairs.region()), none),
        Body::Item { class, kind, url, part } => {
            (Shape::Item, class.into(), kind, at(part), url.map_or(none, at))
        }
    };
    let (count, has_url) = match message.body {
        Body::Options(pairs) => (pairs.count(), 0),
        Body::Item { url, .. } => (0, url.is_some().into()),
        _ => (0, 0),
    };
    let mut flat = [0; FIELDS];
    flat[field::INSTRUCTION] = message.instruction.into();
    flat[field::SHAPE] = shape as u64;
    flat[field::A] = a.into();
    flat[field::B] = b.into();
    [flat[field::START_1], flat[field::LENGTH_1]] = first;
    [flat[field::START_2], flat[field::LENGTH_2]] = second;
    flat[field::COUNT] = count as u64;
    flat[field::HAS_URL] = has_url;
    flat
}

/// Where `part` starts in the bytes that it is a part of.
fn place(bytes: &[u8], part: &[u8]) -> usize {
    part.as_ptr() as usize - bytes.as_ptr() as usize
}

fn report(input: &Input, plain: &str, library: &str) -> Disagreement {
    format!(
        "reading from the {:?}\nplain:   {plain}\nlibrary: {library}\ninput: {}",
        input.side,
        hex(&input.bytes)
    )
}
