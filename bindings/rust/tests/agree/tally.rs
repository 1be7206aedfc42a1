//! What has been compared.

use std::collections::BTreeMap;
use std::fmt;

pub struct Tally {
    name: &'static str,
    accepted: usize,
    /// By number.
    refused: BTreeMap<u8, usize>,
}

impl Tally {
    pub fn new(name: &'static str) -> Self {
        Self { name, accepted: 0, refused: BTreeMap::new() }
    }

    /// Counts an answer that both have given.
    pub fn count<T>(&mut self, answer: &Result<T, u8>) {
        match answer {
            Ok(_) => self.accepted += 1,
            Err(number) => *self.refused.entry(*number).or_default() += 1,
        }
    }

    pub fn inputs(&self) -> usize {
        self.accepted + self.refused.values().sum::<usize>()
    }

    pub fn refusals(&self) -> impl Iterator<Item = u8> + '_ {
        self.refused.keys().copied()
    }

    /// These refusals and no others have been met, or the comparison says less than it seems to.
    pub fn complete(self, refusals: &[u8]) -> Self {
        assert!(self.refusals().eq(refusals.iter().copied()), "{self}: not {refusals:?}");
        self
    }
}

impl fmt::Display for Tally {
    fn fmt(&self, f: &mut fmt::Formatter) -> fmt::Result {
        let Self { name, accepted, refused } = self;
        write!(f, "{name}: {} inputs, {accepted} accepted, refused {refused:?}", self.inputs())
    }
}
