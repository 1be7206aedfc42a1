//! Counting the parts of a cut.

use super::rounds;
use super::table::Row;
use crate::called::parts as called;
use crate::library::parts as library;
use bench::plain;
use std::hint::black_box;

/// How many parts texts of several lengths have, of all four kinds.
pub fn row() -> Row {
    let lengths: Vec<_> = (0..1_000).map(|k| k * k).collect();
    let library = || {
        count(&lengths, |n| {
            let [bare, with_url] = [None, Some(20)].map(|url| library::typed_item_parts(n, url));
            [library::statement_parts(n), library::item_parts(n), bare, with_url]
        })
    };
    let called = || {
        count(&lengths, |n| {
            let [bare, with_url] = [None, Some(20)].map(|url| called::typed_item_parts(n, url));
            [Ok(called::statement_parts(n)), Ok(called::item_parts(n)), bare, with_url]
        })
    };
    let inlined = || {
        count(&lengths, |n| {
            let [bare, with_url] = [None, Some(20)].map(|url| plain::typed_item_parts(n, url));
            [Ok(plain::statement_parts(n)), Ok(plain::item_parts(n)), bare, with_url]
        })
    };
    let ratios = [rounds::ratio(called, library), rounds::ratio(inlined, library)];
    Row::ratios("counting the parts of a cut", ratios, None)
}

/// A sum over what is counted.
#[inline(always)]
fn count(lengths: &[usize], parts: impl Fn(usize) -> [Result<usize, u8>; 4]) -> u64 {
    let total = |parts: [Result<usize, u8>; 4]| parts.map(|count| count.unwrap_or(0)).iter().sum();
    lengths.iter().map(|&n| black_box::<usize>(total(parts(black_box(n)))) as u64).sum()
}
