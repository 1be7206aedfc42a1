//! The options of a SetOptions, each by its number: a walk from the first every time.

use super::rounds::{self, sum};
use super::table::Row;
use crate::{called, library};
use bench::inputs::{shuffled, Input};
use bench::plain::{self, Body, Message, Pairs};
use std::hint::black_box;

/// A message, its options, and the number of one of them.
type Call<'a> = (&'a [u8], Pairs<'a>, usize);

pub fn row(set: &[Input]) -> Row {
    let calls: Vec<_> = set.iter().flat_map(calls).collect();
    let order = shuffled(calls.len(), calls.len());
    let library = || sum(&order, |k| library(black_box(&calls[k])).iter().sum());
    let called = || sum(&order, |k| called(black_box(&calls[k])).iter().sum());
    let inlined = || sum(&order, |k| inlined(black_box(&calls[k])).iter().sum());
    let ratios = [rounds::ratio(called, library), rounds::ratio(inlined, library)];
    Row::ratios("an option by its number, of 300 and more", ratios, None)
}

/// Every option of a message.
fn calls(input: &Input) -> impl Iterator<Item = Call<'_>> {
    let message = plain::read(input.side, &input.bytes);
    let Ok(Message { body: Body::Options(pairs), .. }) = message else {
        unreachable!("a sound SetOptions")
    };
    (0..pairs.count()).map(move |k| (&input.bytes[..], pairs, k))
}

fn place(bytes: &[u8], part: &[u8]) -> usize {
    part.as_ptr() as usize - bytes.as_ptr() as usize
}

#[inline(always)]
fn library((bytes, pairs, k): &Call) -> [u64; 3] {
    let mut fields = [0; 3];
    let region = (place(bytes, pairs.region()), pairs.region().len());
    let _ = library::option(bytes, region, *k, &mut fields);
    fields
}

#[inline(always)]
fn called((bytes, pairs, k): &Call) -> [u64; 3] {
    let mut fields = [0; 3];
    called::option(bytes, pairs, *k, &mut fields);
    fields
}

#[inline(always)]
fn inlined((bytes, pairs, k): &Call) -> [u64; 3] {
    match pairs.iter().nth(*k) {
        Some((id, value)) => [id.into(), place(bytes, value) as u64, value.len() as u64],
        None => [0; 3],
    }
}
