//! Cutting: the number of parts, each part into outputs of several sizes, and part numbers that
//! no part has; then what was cut is joined again.

use super::writing::Outputs;
use super::{Disagreement, Tally};
use crate::library::parts as library;
use bench::inputs::{beyond, cuts, lengths, Cut};
use bench::plain::{self, BODY_MAX, HEAD};

/// More than any part needs.
const LARGE: usize = HEAD + BODY_MAX + 9;

pub fn compare(tally: &mut Tally) -> Result<(), Disagreement> {
    for bytes in lengths() {
        count(bytes)?;
    }
    let mut outputs = Outputs::default();
    for (cut, text) in cuts() {
        let count = parts(&cut, text.len());
        let rooms = [LARGE, 0, 7, 8];
        for k in (0..count).chain(beyond(count)) {
            let written = compare_part(&cut, &text, k, LARGE, &mut outputs, tally)?;
            let short = written.map_or(HEAD, |count| count - 1);
            for room in rooms.into_iter().chain([short, short + 1]) {
                let _ = compare_part(&cut, &text, k, room, &mut outputs, tally)?;
            }
        }
        rejoined(&cut, &text)?;
    }
    Ok(())
}

/// How many parts the plain cutter makes; 0 where it makes none.
fn parts(cut: &Cut, bytes: usize) -> usize {
    match cut {
        Cut::Statement { .. } => plain::statement_parts(bytes),
        Cut::Item => plain::item_parts(bytes),
        Cut::TypedItem { url, .. } => {
            plain::typed_item_parts(bytes, url.as_ref().map(Vec::len)).unwrap_or(0)
        }
    }
}

fn compare_part(
    cut: &Cut,
    text: &[u8],
    k: usize,
    room: usize,
    outputs: &mut Outputs,
    tally: &mut Tally,
) -> Result<Result<usize, u8>, Disagreement> {
    let answer = outputs.call(
        room,
        |out| plain_part(out, cut, text, k),
        |out| library_part(out, cut, text, k),
        || format!("part {k} of {} bytes, {cut:?}", text.len()),
    )?;
    tally.cutting.add(answer.map(|_| 0));
    Ok(answer)
}

fn plain_part(out: &mut [u8], cut: &Cut, text: &[u8], k: usize) -> Result<usize, u8> {
    match cut {
        Cut::Statement { format } => plain::write_statement_part(out, *format, text, k),
        Cut::Item => plain::write_item_part(out, text, k),
        Cut::TypedItem { marks, url } => {
            plain::write_typed_item_part(out, *marks, url.as_deref(), text, k)
        }
    }
}

fn library_part(out: &mut [u8], cut: &Cut, text: &[u8], k: usize) -> Result<usize, u8> {
    match cut {
        Cut::Statement { format } => library::write_statement_part(out, *format, text, k),
        Cut::Item => library::write_item_part(out, text, k),
        Cut::TypedItem { marks, url } => {
            library::write_typed_item_part(out, *marks, url.as_deref(), text, k)
        }
    }
}

/// How many parts so many bytes have, with URLs of several lengths.
fn count(bytes: usize) -> Result<(), Disagreement> {
    let mut counts = vec![
        (Ok(plain::statement_parts(bytes)), library::statement_parts(bytes)),
        (Ok(plain::item_parts(bytes)), library::item_parts(bytes)),
    ];
    for url in [None, Some(0), Some(1), Some(10_227), Some(10_228), Some(bytes), Some(usize::MAX)] {
        counts.push((plain::typed_item_parts(bytes, url), library::typed_item_parts(bytes, url)));
    }
    match counts.iter().any(|(plain, library)| plain != library) {
        true => Err(format!("parts of {bytes} bytes, plain and library: {counts:?}")),
        false => Ok(()),
    }
}

/// The library's parts, joined by the library in a buffer of the text's length, are the text.
fn rejoined(cut: &Cut, text: &[u8]) -> Result<(), Disagreement> {
    let (what, side) = match cut {
        Cut::Statement { .. } => (1, 1),
        Cut::Item => (2, 2),
        Cut::TypedItem { .. } => (3, 2),
    };
    let mut out = vec![0; LARGE];
    let mut buffer = vec![0; text.len()];
    let (mut assembly, mut told) = ([0; library::ASSEMBLY], [0; library::TOLD]);
    let mut answers = vec![library::open(&mut assembly, what)];
    if library_part(&mut out, cut, text, 0).is_err() {
        return Ok(());
    }
    for k in 0..parts(cut, text.len()) {
        let count = library_part(&mut out, cut, text, k).unwrap_or(0);
        answers.push(library::join(&mut assembly, &mut buffer, side, &out[..count], &mut told));
    }
    if what != 1 {
        let end = [0, 0, 1, 114, 0, 0, 0, 0];
        answers.push(library::join(&mut assembly, &mut buffer, side, &end, &mut told));
    }
    let [number, length, ..] = told;
    let whole = number == what && length == text.len() as u64 && buffer == text;
    match whole && answers.iter().all(Result::is_ok) {
        true => Ok(()),
        false => Err(format!("{} bytes cut and joined, {cut:?}: {answers:?} {told:?}", text.len())),
    }
}
