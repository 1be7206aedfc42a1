//! Cutting: the number of parts, and each part into outputs of several sizes.

use crate::lent::Outputs;
use crate::tally::Tally;
use bench::inputs::{self, beyond, cuts};
use bench::plain;
use keddorimp::sedna::{Cut, MESSAGE_MAX};
use keddorimp::Refusal;

pub fn run() -> Tally {
    let mut tally = Tally::new("cutting");
    let mut outputs = Outputs::default();
    for (given, text) in cuts() {
        let cut = cut(&given, &text);
        let parts = count(&given, &text);
        assert_eq!(cut.parts().map_err(Refusal::number), parts, "{given:?}, {}", text.len());
        let parts = parts.unwrap_or(0);
        for k in (0..parts).chain(beyond(parts)) {
            let mut compare = |room| {
                let answer = outputs.compare(
                    room,
                    |out| cut.write_part(k, out),
                    |out| write(out, &given, &text, k),
                    || format!("part {k} of {} bytes, {given:?}", text.len()),
                );
                tally.count(&answer);
                answer
            };
            let exact = compare(MESSAGE_MAX + 9).unwrap_or(8);
            let _ = (compare(exact), compare(exact - 1));
        }
    }
    tally.complete(&[8, 10, 11, 14])
}

fn cut<'a>(given: &'a inputs::Cut, text: &'a [u8]) -> Cut<'a> {
    match *given {
        inputs::Cut::Statement { format } => Cut::Statement { format, text },
        inputs::Cut::Item => Cut::Item { text },
        inputs::Cut::TypedItem { marks: [class, kind], ref url } => {
            Cut::TypedItem { class, kind, url: url.as_deref(), text }
        }
    }
}

fn count(given: &inputs::Cut, text: &[u8]) -> Result<usize, u8> {
    match given {
        inputs::Cut::Statement { .. } => Ok(plain::statement_parts(text.len())),
        inputs::Cut::Item => Ok(plain::item_parts(text.len())),
        inputs::Cut::TypedItem { url, .. } => {
            plain::typed_item_parts(text.len(), url.as_ref().map(Vec::len))
        }
    }
}

fn write(out: &mut [u8], given: &inputs::Cut, text: &[u8], k: usize) -> Result<usize, u8> {
    match given {
        inputs::Cut::Statement { format } => plain::write_statement_part(out, *format, text, k),
        inputs::Cut::Item => plain::write_item_part(out, text, k),
        inputs::Cut::TypedItem { marks, url } => {
            plain::write_typed_item_part(out, *marks, url.as_deref(), text, k)
        }
    }
}
