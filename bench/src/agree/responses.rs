//! BaseX responses: read, asked for their error, walked item by item and written again.

use super::replies;
use super::told::{both, rooms, too_few_numbers, Answer, FILL};
use super::{hex, Disagreement, Tally};
use crate::called::basex as called;
use crate::library::basex::{self as library, ITEM, PLACE, RESPONSE};
use bench::inputs::basex::{known, responses_read, FULL, QUERY, RESULTS};
use bench::plain::basex::kind::Form;
use bench::plain::refusal::{BAD_ESCAPE, MORE_NEEDED, NOT_ALLOWED, NO_ROOM, UNKNOWN};

pub fn compare(tally: &mut Tally) -> Result<(), Disagreement> {
    for (kind, bytes) in responses_read() {
        // No text is longer than its string.
        let answer = compare_reading(kind, &bytes, bytes.len(), tally)?;
        for room in rooms(answer.map(|(_, told)| stored(&told))) {
            let _ = compare_reading(kind, &bytes, room, tally)?;
        }
        if let Ok((count, told)) = answer {
            compare_error(kind, &told)?;
            written_again(kind, &bytes[..count], &told)?;
        }
        compare_items(kind, &bytes, tally)?;
    }
    few_numbers()?;
    few_numbers_of_items()?;
    bad_calls_for_an_error()
}

/// The bytes of all texts.
fn stored(told: &[u64; RESPONSE]) -> usize {
    let [first, second, _, listed, _, error] = told;
    (first + second + listed + error) as usize
}

fn compare_reading(
    kind: u8,
    bytes: &[u8],
    room: usize,
    tally: &mut Tally,
) -> Result<Answer<RESPONSE>, Disagreement> {
    let answer = both(
        room,
        |out| {
            let mut told = [0; RESPONSE];
            called::read_response(kind, bytes, out, &mut told).map(|count| (count, told))
        },
        |out, told| library::read_response(kind, bytes, out, told),
        |_, told| 0..stored(told),
        || format!("reading a response to {kind:02X}: {}", hex(bytes)),
    )?;
    tally.responses_read.add(answer.map(|_| known(kind).map_or(0, |row| row.0.into())));
    Ok(answer)
}

/// Where the error stands among the texts of a failed request. "With status 01 the last string is
/// the error" of CREATE and its kin, and of COMMAND; the others have one behind the status.
fn compare_error(kind: u8, told: &[u64; RESPONSE]) -> Result<(), Disagreement> {
    let [first, second, _, listed, status, error] = *told;
    let [start, len] = match Form::of(kind) {
        Some(Form::Stored) => [0, first],
        Some(Form::Command) => [first, second],
        _ => [first + second + listed, error],
    };
    let expected = if status == 1 { [start, len, FILL] } else { [FILL; PLACE + 1] };
    let mut place = [FILL; PLACE + 1];
    let answer = library::error(kind, told, &mut place);
    match answer == Ok(status as usize) && place == expected {
        true => Ok(()),
        false => Err(format!(
            "the error of {told:?} to {kind:02X}, not {expected:?}: {answer:?} {place:?}"
        )),
    }
}

/// Too few numbers of a response, a kind that is none, a status that is none, no room for the
/// place: the first that is met is told. A request that has not failed needs no room.
fn bad_calls_for_an_error() -> Result<(), Disagreement> {
    let failed = |status| [1, 0, 0, 0, status, 3];
    for (kind, status, told, lent, expected) in [
        (0x01, 2, 0, 0, Err(NO_ROOM)),
        (QUERY, 1, 5, PLACE, Err(NO_ROOM)),
        (0x01, 2, RESPONSE, 0, Err(UNKNOWN)),
        (0xFF, 0, RESPONSE, PLACE, Err(UNKNOWN)),
        (QUERY, 2, RESPONSE, 0, Err(NOT_ALLOWED)),
        (QUERY, u64::MAX, RESPONSE, PLACE, Err(NOT_ALLOWED)),
        (QUERY, 1, RESPONSE, 0, Err(NO_ROOM)),
        (QUERY, 1, RESPONSE, 1, Err(NO_ROOM)),
        (QUERY, 0, RESPONSE, 0, Ok(0)),
    ] {
        let mut place = [FILL; PLACE];
        let answer = library::error(kind, &failed(status)[..told], &mut place[..lent]);
        if answer != expected || place != [FILL; PLACE] {
            return Err(format!(
                "the error to {kind:02X}, status {status}, {told} and {lent} numbers, \
                 not {expected:?}: {answer:?} {place:?}"
            ));
        }
    }
    Ok(())
}

/// Items from the front up to the end of them or to a refusal, and at places behind the bytes, as
/// in RESULTS and as in FULL, whatever the bytes are; and as in what they are read for.
fn compare_items(kind: u8, bytes: &[u8], tally: &mut Tally) -> Result<(), Disagreement> {
    let behind = [bytes.len(), bytes.len() + 1, usize::MAX];
    let other = Some(kind).filter(|kind| ![RESULTS, FULL].contains(kind));
    for kind in [RESULTS, FULL].into_iter().chain(other) {
        let mut at = 0;
        while let Ok((count @ 1.., [id, ..])) = compare_item(kind, bytes, at)? {
            tally.items.add(Ok(id as u32));
            at += count;
        }
        for place in [at].into_iter().chain(behind) {
            let answer = compare_item(kind, bytes, place)?;
            tally.items.add(answer.map(|(_, [id, ..])| id as u32));
        }
    }
    Ok(())
}

/// The bytes of an item and what is told of it, or zeros for the end of them.
fn compare_item(kind: u8, bytes: &[u8], at: usize) -> Result<Answer<ITEM>, Disagreement> {
    let (mut plain, mut numbers) = ([FILL; ITEM], [FILL; ITEM + 1]);
    let expected = called::item(kind, bytes, at, &mut plain);
    let answer = library::item(kind, bytes, at, &mut numbers);
    let [id, uri, text, behind] = numbers;
    match answer == expected && plain == [id, uri, text] && behind == FILL {
        true => Ok(answer.map(|count| (count, if count == 0 { [0; ITEM] } else { plain }))),
        false => Err(format!(
            "item at {at} to {kind:02X}, plain {expected:?} {plain:?}, \
             library {answer:?} {numbers:?}: {}",
            hex(bytes)
        )),
    }
}

/// What was read is written as the same bytes, item by item.
fn written_again(kind: u8, bytes: &[u8], told: &[u64; RESPONSE]) -> Result<(), Disagreement> {
    let mut out = vec![0; stored(told)];
    let _ = library::read_response(kind, bytes, &mut out, &mut [0; RESPONSE]);
    let [first, second, items, listed, status, _] = told.map(|number| number as usize);
    let (first, rest) = out.split_at(first);
    let (second, rest) = rest.split_at(second);
    let (mut listed, error) = rest.split_at(listed);
    let mut writer = replies::Writer { kind, out: vec![0; bytes.len()], at: 0 };
    let (mut at, mut answers) = (0, vec![]);
    for _ in 0..items {
        let (count, [id, uri, text]) = compare_item(kind, bytes, at)?.unwrap_or_default();
        let (uri, rest) = listed.split_at(uri as usize);
        let (text, rest) = rest.split_at(text as usize);
        answers.push(writer.item(id as u8, uri, text));
        (listed, at) = (rest, at + count);
    }
    answers.push(writer.end([first, second], status as u8, error));
    match answers.iter().copied().sum::<Result<_, _>>() == Ok(bytes.len()) && writer.out == bytes {
        true => Ok(()),
        false => Err(format!("{answers:?}, to {kind:02X} read and written: {}", hex(bytes))),
    }
}

/// With too few numbers lent to the reading, 10 behind every other refusal.
fn few_numbers() -> Result<(), Disagreement> {
    let refused: [(u8, &[u8], u8); 8] = [
        (0x01, b"", MORE_NEEDED),
        (0x01, b"a\0\0", UNKNOWN),
        (QUERY, b"a\0", MORE_NEEDED),
        (QUERY, b"a\0\x02", NOT_ALLOWED),
        (QUERY, b"\xFFa", BAD_ESCAPE),
        (QUERY, b"a\0\0", NO_ROOM),
        (QUERY, b"\0\0", NO_ROOM),
        (FULL, b"\x0Cu\0t\0\0\0", NO_ROOM),
    ];
    for (kind, bytes, number) in refused {
        too_few_numbers::<RESPONSE>(bytes, number, |out, told| {
            library::read_response(kind, bytes, out, told)
        })?;
    }
    Ok(())
}

/// The same of the call for an item; the end of the items needs no numbers.
fn few_numbers_of_items() -> Result<(), Disagreement> {
    let refused: [(u8, &[u8], u8); 9] = [
        (0x01, b"", MORE_NEEDED),
        (QUERY, b"", MORE_NEEDED),
        (FULL, b"", MORE_NEEDED),
        (0x01, b"\x07a\0", UNKNOWN),
        (QUERY, b"\x07a\0", NOT_ALLOWED),
        (FULL, b"\x06a\0", NOT_ALLOWED),
        (FULL, b"\x07\xFFa", BAD_ESCAPE),
        (FULL, b"\x07a\0", NO_ROOM),
        (RESULTS, b"\x07\0", NO_ROOM),
    ];
    for (kind, bytes, number) in refused {
        too_few_numbers::<ITEM>(bytes, number, |_, told| library::item(kind, bytes, 0, told))?;
    }
    match library::item(FULL, b"\0", 0, &mut []) {
        Ok(0) => Ok(()),
        answer => Err(format!("the end of the items, no number lent: {answer:?}")),
    }
}
