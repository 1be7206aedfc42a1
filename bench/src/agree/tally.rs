//! What has been compared, and whether anything was never met.

use super::Disagreement;
use bench::inputs::{basex, MESSAGES};
use std::collections::BTreeMap;
use std::fmt;

/// Calls of one operation: accepted ones by the kind of what was accepted (0 where there is one
/// kind only), refused ones by number.
#[derive(Default)]
pub struct Count {
    accepted: BTreeMap<u32, usize>,
    refused: BTreeMap<u8, usize>,
}

impl Count {
    pub fn add(&mut self, answer: Result<u32, u8>) {
        match answer {
            Ok(kind) => *self.accepted.entry(kind).or_default() += 1,
            Err(number) => *self.refused.entry(number).or_default() += 1,
        }
    }

    fn calls(&self) -> usize {
        self.accepted.values().chain(self.refused.values()).sum()
    }

    /// These kinds and these refusals were met, and no others.
    fn complete(&self, kinds: &[u32], refusals: &[u8]) -> bool {
        self.accepted.keys().eq(kinds) && self.refused.keys().eq(refusals)
    }
}

impl fmt::Display for Count {
    fn fmt(&self, f: &mut fmt::Formatter) -> fmt::Result {
        let Self { accepted, refused } = self;
        write!(f, "{} accepted", accepted.values().sum::<usize>())?;
        if accepted.len() > 1 {
            write!(f, " (of {} kinds)", accepted.len())?;
        }
        write!(f, ", refused {refused:?}")
    }
}

#[derive(Default)]
pub struct Tally {
    pub reading: Count,
    pub writing: Count,
    pub stepping: Count,
    pub sessions: usize,
    pub cutting: Count,
    pub joining: Count,
    pub gatherings: usize,
    pub typed: Count,
    pub compared: Count,
    pub strings_written: Count,
    pub strings_decoded: Count,
    pub requests_read: Count,
    pub requests_written: Count,
    pub responses_read: Count,
    pub items: Count,
    pub items_written: Count,
    pub ends_written: Count,
}

impl Tally {
    /// Every kind accepted and every refusal met, or the comparison says less than it seems to.
    pub fn complete(&self) -> Result<(), Disagreement> {
        let messages = MESSAGES.map(|message| message.0);
        let kinds = basex::KINDS.map(|row| row.0.into());
        let ids: Vec<_> = (7..=15).chain(32..=83).collect();
        // The end of the items is told as id 0.
        let ids_and_end = [&[0], &ids[..]].concat();
        let complete = [
            self.reading.complete(&messages, &[1, 2, 3, 4, 5, 6, 7, 8]),
            self.writing.complete(&messages, &[2, 8, 10, 11]),
            self.stepping.complete(&messages, &[1, 2, 3, 4, 5, 6, 7, 8, 9]),
            self.cutting.complete(&[0], &[8, 10, 11, 14]),
            // Parts, and the ends of three kinds of gathering.
            self.joining.complete(&[0, 1, 2, 3], &[1, 2, 3, 4, 5, 6, 7, 8, 9, 12]),
            // Whole numbers, instants, truths and doubles; earlier, the same and later.
            self.typed.complete(&[1, 2, 3, 4], &[10, 15, 16]),
            self.compared.complete(&[0, 1, 2], &[]),
            self.strings_written.complete(&[0], &[10]),
            self.strings_decoded.complete(&[0], &[1, 10, 13]),
            self.requests_read.complete(&kinds, &[1, 2, 10, 13]),
            self.requests_written.complete(&kinds, &[2, 8, 10, 11]),
            self.responses_read.complete(&kinds, &[1, 2, 8, 10, 13]),
            self.items.complete(&ids_and_end, &[1, 2, 8, 13]),
            self.items_written.complete(&ids, &[2, 8, 10]),
            self.ends_written.complete(&kinds, &[2, 8, 10]),
        ];
        match complete.iter().all(|&complete| complete) {
            true => Ok(()),
            false => Err(format!("a kind or a refusal was never met: {complete:?}\n{self}")),
        }
    }

    fn show_basex(&self, f: &mut fmt::Formatter) -> fmt::Result {
        let [a, b] = [&self.strings_written, &self.strings_decoded].map(Count::calls);
        writeln!(f, "agree: {a} strings written, {b} decoded")?;
        writeln!(f, "  writing: {}", self.strings_written)?;
        writeln!(f, "  decoding: {}", self.strings_decoded)?;
        let [a, b] = [&self.requests_read, &self.requests_written].map(Count::calls);
        writeln!(f, "agree: {a} requests read, {b} written")?;
        writeln!(f, "  reading: {}", self.requests_read)?;
        writeln!(f, "  writing: {}", self.requests_written)?;
        let counts = [&self.responses_read, &self.items, &self.items_written, &self.ends_written];
        let [a, b, c, d] = counts.map(Count::calls);
        writeln!(f, "agree: {a} responses and {b} items read, {c} items and {d} ends written")?;
        writeln!(f, "  reading: {}", self.responses_read)?;
        writeln!(f, "  walking: {}", self.items)?;
        writeln!(f, "  writing items: {}", self.items_written)?;
        write!(f, "  writing ends: {}", self.ends_written)
    }
}

impl fmt::Display for Tally {
    fn fmt(&self, f: &mut fmt::Formatter) -> fmt::Result {
        let counts = [&self.reading, &self.writing, &self.stepping, &self.cutting, &self.joining];
        let [a, b, c, d, e] = counts.map(Count::calls);
        writeln!(f, "agree: {a} inputs read, {b} written")?;
        writeln!(f, "  reading: {}", self.reading)?;
        writeln!(f, "  writing: {}", self.writing)?;
        writeln!(f, "agree: {c} offers to {} sessions", self.sessions)?;
        writeln!(f, "  stepping: {}", self.stepping)?;
        writeln!(f, "agree: {d} parts cut, {e} messages to {} gatherings", self.gatherings)?;
        writeln!(f, "  cutting: {}", self.cutting)?;
        writeln!(f, "  joining: {}", self.joining)?;
        let [a, b] = [&self.typed, &self.compared].map(Count::calls);
        writeln!(f, "agree: {a} texts given a value, {b} pairs of instants compared")?;
        writeln!(f, "  values: {}", self.typed)?;
        self.show_basex(f)
    }
}
