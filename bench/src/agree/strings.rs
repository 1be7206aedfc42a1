//! BaseX strings: the library against both plain ways, every answer and every byte of the output
//! and behind it; and what was written is decoded again.

use super::told::too_few_numbers;
use super::writing::pattern;
use super::{hex, Disagreement, Tally};
use crate::library::basex::{self as library, DECODED};
use bench::inputs::strings::{readings, spellings, Reading, Spelling};
use bench::plain::basex::{bytes, runs, Place};
use bench::plain::refusal::{BAD_ESCAPE, MORE_NEEDED, NO_ROOM};
use std::fmt::Debug;

/// Bytes behind the lent output that nobody may touch.
const GUARD: usize = 64;

pub fn compare(tally: &mut Tally) -> Result<(), Disagreement> {
    for spelling in spellings() {
        let answer = compare_writing(&spelling)?;
        tally.strings_written.add(answer.map(|_| 0));
    }
    for reading in readings() {
        let answer = compare_decoding(&reading)?;
        tally.strings_decoded.add(answer.map(|_| 0));
    }
    few_numbers()?;
    told_once()
}

fn compare_writing(spelling: &Spelling) -> Result<Result<usize, u8>, Disagreement> {
    let Spelling { text, room, at } = spelling;
    let what = || format!("writing at {at} {}", hex(text));
    let lengths = [bytes::string_len(text), runs::string_len(text), library::string_len(text)];
    let answer = same(
        *room,
        [
            &mut |out| bytes::write_string(out, *at, text),
            &mut |out| runs::write_string(out, *at, text),
            &mut |out| library::write_string(out, *at, text),
        ],
        |answer| answer.map_or(0..0, |count| *at..*at + count),
        what,
    )?;
    let [length, ..] = lengths;
    if lengths != [length; 3] || answer.is_ok_and(|count| count != length) {
        return Err(format!("lengths {lengths:?}, {}", what()));
    }
    decoded_again(text)?;
    Ok(answer)
}

/// What the library writes, it decodes again.
fn decoded_again(text: &[u8]) -> Result<(), Disagreement> {
    let mut string = vec![0; library::string_len(text)];
    let mut out = vec![0; text.len()];
    let written = library::write_string(&mut string, 0, text);
    let decoded = library::decode(&string, 0, &mut out, 0);
    let whole = Place { len: text.len(), next: string.len() };
    match written == Ok(string.len()) && decoded == Ok(whole) && out == text {
        true => Ok(()),
        false => Err(format!("{written:?} {decoded:?}, written and decoded: {}", hex(text))),
    }
}

fn compare_decoding(reading: &Reading) -> Result<Result<Place, u8>, Disagreement> {
    let Reading { bytes: from, at, room, to } = reading;
    let judged = [bytes::judge(from, *at), runs::judge(from, *at), library::judge(from, *at)];
    if judged != [judged[0]; 3] {
        return Err(format!("judging at {at} {}: {judged:?}", hex(from)));
    }
    same(
        *room,
        [
            &mut |out| bytes::decode(from, *at, out, *to),
            &mut |out| runs::decode(from, *at, out, *to),
            &mut |out| library::decode(from, *at, out, *to),
        ],
        |answer| answer.map_or(0..0, |place| *to..*to + place.len),
        || format!("decoding at {at} to {to}: {}", hex(from)),
    )
}

type Call<'a, A> = &'a mut dyn FnMut(&mut [u8]) -> Result<A, u8>;

/// All three calls, each with `room` bytes of its own; nothing changes but what `stored` says.
fn same<A: Copy + Debug + PartialEq>(
    room: usize,
    calls: [Call<A>; 3],
    stored: impl Fn(Result<A, u8>) -> std::ops::Range<usize>,
    what: impl Fn() -> String,
) -> Result<Result<A, u8>, Disagreement> {
    let [first, second, third] = calls.map(|call| {
        let mut out: Vec<_> = (0..room + GUARD).map(pattern).collect();
        let answer = call(&mut out[..room]);
        (answer, out)
    });
    if first != second || first != third {
        return Err(format!("into {room} bytes, {}\n{first:?}\n{second:?}\n{third:?}", what()));
    }
    let (answer, out) = first;
    let stored = stored(answer);
    match (0..room + GUARD).find(|at| !stored.contains(at) && out[*at] != pattern(*at)) {
        Some(at) => Err(format!("byte {at} changed, into {room} bytes, {}", what())),
        None => Ok(answer),
    }
}

/// With no number lent, 10 behind every other refusal.
fn few_numbers() -> Result<(), Disagreement> {
    let refused: [(&[u8], u8); 5] = [
        (b"a", MORE_NEEDED),
        (b"\xFF", MORE_NEEDED),
        (b"\xFFa", BAD_ESCAPE),
        (b"a\0", NO_ROOM),
        (b"\0", NO_ROOM),
    ];
    for (bytes, number) in refused {
        let judge = |_: &mut [u8], told: &mut [u64]| library::string_at(bytes, 0, told);
        too_few_numbers::<DECODED>(bytes, number, judge)?;
        let decode = |out: &mut [u8], told: &mut [u64]| library::read(bytes, 0, out, 0, told);
        too_few_numbers::<DECODED>(bytes, number, decode)?;
    }
    Ok(())
}

/// A refused string tells nothing, and a sound one no number behind its length.
fn told_once() -> Result<(), Disagreement> {
    let (mut out, mut told) = ([7; 9], [9; DECODED + 1]);
    let bad = library::read(b"\xFFa", 0, &mut out, 0, &mut told);
    if bad.is_ok() || out != [7; 9] || told != [9; DECODED + 1] {
        return Err(format!("refused: {bad:?} {out:?} {told:?}"));
    }
    let sound = library::read(b"ab\0", 0, &mut out, 0, &mut told);
    match sound == Ok(3) && told == [2, 9] {
        true => Ok(()),
        false => Err(format!("told {told:?}, {sound:?}")),
    }
}
