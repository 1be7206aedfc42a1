//! The options of a SetOptions.

use crate::raw::sedna::option;
use core::iter::FusedIterator;

/// The options of a SetOptions that was read: any number of ids with values.
///
/// ```
/// use keddorimp::sedna::{read, Body, Side};
///
/// let bytes = [0, 0, 2, 18, 0, 0, 0, 10, 0, 0, 0, 7, 0, 0, 0, 0, 1, b'x'];
/// let (message, _) = read(Side::Client, &bytes)?;
/// let Body::Options(options) = &message.body else { panic!("not a SetOptions") };
/// for setting in options {
///     assert_eq!((setting.id, setting.value), (7, &b"x"[..]));
/// }
/// assert_eq!(options.len(), 1);
/// # Ok::<(), keddorimp::Refusal>(())
/// ```
#[derive(Clone, Copy, Debug, PartialEq, Eq)]
pub struct Options<'a> {
    /// The pairs as they were read.
    pairs: &'a [u8],
    count: usize,
}

/// One option. Ids have no published numbers: all are taken.
#[derive(Clone, Copy, Debug, PartialEq, Eq)]
pub struct Setting<'a> {
    /// Which option.
    pub id: u32,
    /// What it is set to.
    pub value: &'a [u8],
}

impl<'a> Options<'a> {
    pub(super) fn told(pairs: &'a [u8], count: u64) -> Self {
        Self { pairs, count: count as usize }
    }

    /// How many there are.
    pub fn len(&self) -> usize {
        self.count
    }

    /// Whether there is none.
    pub fn is_empty(&self) -> bool {
        self.count == 0
    }

    /// The option number `k`, from 0. It is found by walking from the first; who wants all of them
    /// takes [`iter`](Self::iter).
    pub fn get(&self, k: usize) -> Option<Setting<'a>> {
        option_at(self.pairs, 0, k).map(|(setting, _)| setting)
    }

    /// All of them, in their order.
    pub fn iter(&self) -> Settings<'a> {
        Settings { pairs: self.pairs, at: 0, left: self.count }
    }
}

impl<'a> IntoIterator for Options<'a> {
    type Item = Setting<'a>;
    type IntoIter = Settings<'a>;

    fn into_iter(self) -> Settings<'a> {
        self.iter()
    }
}

impl<'a> IntoIterator for &Options<'a> {
    type Item = Setting<'a>;
    type IntoIter = Settings<'a>;

    fn into_iter(self) -> Settings<'a> {
        self.iter()
    }
}

/// Options one after another.
#[derive(Clone, Debug)]
pub struct Settings<'a> {
    pairs: &'a [u8],
    /// Where the next one starts.
    at: usize,
    left: usize,
}

impl<'a> Iterator for Settings<'a> {
    type Item = Setting<'a>;

    fn next(&mut self) -> Option<Setting<'a>> {
        self.left = self.left.checked_sub(1)?;
        let (setting, next) = option_at(self.pairs, self.at, 0)?;
        self.at = next;
        Some(setting)
    }

    fn size_hint(&self) -> (usize, Option<usize>) {
        (self.left, Some(self.left))
    }
}

impl ExactSizeIterator for Settings<'_> {}

impl FusedIterator for Settings<'_> {}

/// The option number `k` from `start` on, and where the next one starts.
fn option_at(pairs: &[u8], start: usize, k: usize) -> Option<(Setting<'_>, usize)> {
    let [id, at, len] = option(pairs, start, k)?;
    let (at, len) = (at as usize, len as usize);
    Some((Setting { id: id as u32, value: &pairs[at..][..len] }, at + len))
}
