//! BaseX responses, written item by item and then the end; a sound one gives its bytes.

use super::told::{both_write, rooms};
use super::{hex, Disagreement, Tally};
use crate::called::basex as called;
use crate::library::basex as library;
use bench::inputs::basex::{known, responses, Answered, Listed};

pub fn compare(tally: &mut Tally) -> Result<(), Disagreement> {
    // Bytes ahead of what is written, which change from call to call.
    let places = [0, 1, 7].into_iter().cycle();
    for (answered, at) in responses().zip(places) {
        let Answered { kind, items, .. } = &answered;
        let mut refused = false;
        for item in items {
            refused |= compare_item(*kind, at, item, tally)?.is_err();
        }
        refused |= compare_end(&answered, at, tally)?.is_err();
        if !refused {
            whole(&answered)?;
        }
    }
    Ok(())
}

fn compare_item(kind: u8, at: usize, item: &Listed, tally: &mut Tally) -> End {
    let Listed { id, uri, text } = item;
    let mut call = |room, at| {
        let answer = both_write(
            room,
            at,
            |out| called::write_item(out, at, kind, *id, uri, text),
            |out| library::write_item(out, at, kind, *id, uri, text),
            || format!("writing at {at} to {kind:02X} {item:?}"),
        )?;
        tally.items_written.add(answer.map(|_| (*id).into()));
        Ok(answer.map(|count| at + count))
    };
    in_rooms(at, at + 3 + 2 * (uri.len() + text.len()), &mut call)
}

fn compare_end(answered: &Answered, at: usize, tally: &mut Tally) -> End {
    let Answered { kind, status, error, .. } = answered;
    let (kind, texts) = (*kind, answered.texts());
    let mut call = |room, at| {
        let answer = both_write(
            room,
            at,
            |out| called::write_end(out, at, kind, texts, *status, error),
            |out| library::write_end(out, at, kind, texts, *status, error),
            || format!("writing at {at} {:?} {:?}", texts.map(hex), (kind, status, hex(error))),
        )?;
        tally.ends_written.add(answer.map(|_| known(kind).map_or(0, |row| row.0.into())));
        Ok(answer.map(|count| at + count))
    };
    in_rooms(at, at + 5 + 2 * (texts.concat().len() + error.len()), &mut call)
}

/// Where the written bytes end, for both.
type End = Result<Result<usize, u8>, Disagreement>;

/// Calls with room for the most that may be written, with other rooms, and at places behind them.
fn in_rooms(at: usize, most: usize, call: &mut dyn FnMut(usize, usize) -> End) -> End {
    let end = call(most, at)?;
    for room in rooms(end) {
        let _ = call(room, at)?;
    }
    for place in [most + 1, usize::MAX] {
        let _ = call(most, place)?;
    }
    Ok(end)
}

/// A response that the library writes, item after item.
pub struct Writer {
    pub kind: u8,
    pub out: Vec<u8>,
    pub at: usize,
}

impl Writer {
    pub fn item(&mut self, id: u8, uri: &[u8], text: &[u8]) -> Result<usize, u8> {
        let Self { kind, out, at } = self;
        let answer = library::write_item(out, *at, *kind, id, uri, text);
        *at += answer.unwrap_or(0);
        answer
    }

    pub fn end(&mut self, texts: [&[u8]; 2], status: u8, error: &[u8]) -> Result<usize, u8> {
        let Self { kind, out, at } = self;
        let answer = library::write_end(out, *at, *kind, texts, status, error);
        *at += answer.unwrap_or(0);
        answer
    }
}

/// All calls of a sound response, into an output of its length, give its bytes.
fn whole(answered: &Answered) -> Result<(), Disagreement> {
    let bytes = answered.bytes();
    let mut writer = Writer { kind: answered.kind, out: vec![0; bytes.len()], at: 0 };
    let items = answered.items.iter().map(|Listed { id, uri, text }| (*id, uri, text));
    let mut answers: Vec<_> = items.map(|(id, uri, text)| writer.item(id, uri, text)).collect();
    answers.push(writer.end(answered.texts(), answered.status, &answered.error));
    match answers.iter().copied().sum::<Result<_, _>>() == Ok(bytes.len()) && writer.out == bytes {
        true => Ok(()),
        false => Err(format!("{answers:?} {}, not {answered:?}", hex(&writer.out))),
    }
}
