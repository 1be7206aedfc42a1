//! The writers: the answer, and every byte of the output and behind it.

use super::{hex, Disagreement, Tally};
use crate::library;
use bench::plain::{self, Value};

/// Bytes behind the lent output that nobody may touch.
const GUARD: usize = 64;

/// An output for each writer.
#[derive(Default)]
pub struct Outputs {
    plain: Vec<u8>,
    library: Vec<u8>,
}

impl Outputs {
    /// What the plain writer made of its output, the bytes behind it included.
    pub fn plain(&self) -> &[u8] {
        &self.plain
    }

    /// One call of both, with `room` bytes of output lent.
    pub fn compare(
        &mut self,
        instruction: u32,
        value: &Value,
        room: usize,
        tally: &mut Tally,
    ) -> Result<(), Disagreement> {
        let answer = self.call(
            room,
            |out| plain::write(out, instruction, value),
            |out| library::write(out, instruction, value),
            || format!("writing {instruction}: {}", show(value)),
        )?;
        tally.writing.add(answer.map(|_| instruction));
        Ok(())
    }

    /// A call of both writers, whatever they write; the answer is that of both.
    pub fn call(
        &mut self,
        room: usize,
        plain: impl FnOnce(&mut [u8]) -> Result<usize, u8>,
        library: impl FnOnce(&mut [u8]) -> Result<usize, u8>,
        what: impl Fn() -> String,
    ) -> Result<Result<usize, u8>, Disagreement> {
        fill(&mut self.plain, room + GUARD);
        fill(&mut self.library, room + GUARD);
        let plain = plain(&mut self.plain[..room]);
        let library = library(&mut self.library[..room]);
        if plain != library || self.plain != self.library {
            return Err(format!(
                "into {room} bytes, {}\nplain:   {plain:?} {}\nlibrary: {library:?} {}",
                what(),
                hex(&self.plain),
                hex(&self.library)
            ));
        }
        let written = plain.unwrap_or(0);
        match (written..room + GUARD).find(|&at| self.plain[at] != pattern(at)) {
            Some(at) => Err(format!("byte {at} changed, into {room} bytes, {}", what())),
            None => Ok(plain),
        }
    }
}

pub fn pattern(at: usize) -> u8 {
    (at * 31 + 7) as u8
}

fn fill(output: &mut Vec<u8>, length: usize) {
    output.clear();
    output.extend((0..length).map(pattern));
}

/// The value, its texts in hex.
fn show(value: &Value) -> String {
    match *value {
        Value::Empty => "Empty".into(),
        Value::Session { major, minor, user, database } => {
            format!("Session {major}.{minor} user {} database {}", hex(user), hex(database))
        }
        Value::Text(text) => format!("Text {}", hex(text)),
        Value::Statement { format, text } => format!("Statement {format} {}", hex(text)),
        Value::Coded { code, text } => format!("Coded {code} {}", hex(text)),
        Value::Options { ids, lengths, values } => {
            format!("Options ids {ids:?} lengths {lengths:?} values {}", hex(values))
        }
        Value::Item { class, kind, url, part } => {
            format!("Item {class} {kind} url {:?} part {}", url.map(hex), hex(part))
        }
    }
}
