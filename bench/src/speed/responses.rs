//! BaseX responses: read with their texts decoded, walked item by item, and written.

mod ways;

use super::rounds::{self, copy, sum};
use super::table::Row;
use bench::inputs::basex::{large_answer, listings, Answered, Listed, FULL, RESULTS};
use std::cell::RefCell;
use std::hint::black_box;
use ways::{Called, Inlined, Library, Way};

pub fn rows() -> Vec<Row> {
    let works = [
        ("a RESULTS response, 1,000 items", Work::new(listings(RESULTS))),
        ("a FULL response, 1,000 items", Work::new(listings(FULL))),
        ("a COMMAND response, 1,000,000 bytes", Work::new(vec![large_answer()])),
    ];
    let [results, full, _] = &works;
    let reading = works.iter().map(|(name, work)| work.reading(format!("reading {name}")));
    let walking = [results, full].into_iter();
    let walking = walking.map(|(name, work)| work.walking(format!("walking {name}")));
    let writing = works.iter().map(|(name, work)| work.writing(format!("writing {name}")));
    reading.chain(walking).chain(writing).collect()
}

/// Responses, their bytes, all decoded texts of each, and the order in which they are taken.
struct Work {
    responses: Vec<Answered>,
    bytes: Vec<Vec<u8>>,
    texts: Vec<Vec<u8>>,
    order: Vec<usize>,
}

impl Work {
    fn new(responses: Vec<Answered>) -> Self {
        let bytes = responses.iter().map(Answered::bytes).collect();
        let decoded = |response: &Answered| {
            let items = response.items.iter().flat_map(|item| [&item.uri, &item.text]);
            response.texts.iter().chain(items).flatten().copied().collect()
        };
        let texts = responses.iter().map(decoded).collect();
        let order = (0..responses.len()).collect();
        Self { responses, bytes, texts, order }
    }

    fn reading(&self, name: String) -> Row {
        // One output for all, so that they do not differ in how it is aligned.
        let out = RefCell::new(vec![0; longest(&self.texts)]);
        let library = || self.read::<Library>(&mut out.borrow_mut());
        let called = || self.read::<Called>(&mut out.borrow_mut());
        let inlined = || self.read::<Inlined>(&mut out.borrow_mut());
        let copies =
            || self.order.iter().for_each(|&k| copy(&self.texts[k], &mut out.borrow_mut()));
        let ratios = [rounds::ratio(called, library), rounds::ratio(inlined, library)];
        Row::ratios(name, ratios, Some(rounds::copy_ratio(copies, library)))
    }

    fn walking(&self, name: String) -> Row {
        let library = || self.walk::<Library>();
        let called = rounds::ratio(|| self.walk::<Called>(), library);
        Row::ratios(name, [called, rounds::ratio(|| self.walk::<Inlined>(), library)], None)
    }

    fn writing(&self, name: String) -> Row {
        let out = RefCell::new(vec![0; longest(&self.bytes)]);
        let library = || self.write::<Library>(&mut out.borrow_mut());
        let called = || self.write::<Called>(&mut out.borrow_mut());
        let inlined = || self.write::<Inlined>(&mut out.borrow_mut());
        let copies =
            || self.order.iter().for_each(|&k| copy(&self.bytes[k], &mut out.borrow_mut()));
        let ratios = [rounds::ratio(called, library), rounds::ratio(inlined, library)];
        Row::ratios(name, ratios, Some(rounds::copy_ratio(copies, library)))
    }

    #[inline(always)]
    fn read<W: Way>(&self, out: &mut [u8]) -> u64 {
        sum(&self.order, |k| {
            let kind = self.responses[k].kind;
            W::read(kind, black_box(&self.bytes[k]), black_box(out)).unwrap_or_else(u64::from)
        })
    }

    /// All items from the first; a sum over the answers and what is told of them.
    #[inline(always)]
    fn walk<W: Way>(&self) -> u64 {
        sum(&self.order, |k| {
            let kind = self.responses[k].kind;
            let (mut at, mut sum) = (0, 0);
            while let Ok((count @ 1.., told)) = W::item(kind, black_box(&self.bytes[k]), at) {
                sum += told.iter().sum::<u64>();
                at += count;
            }
            sum + at as u64
        })
    }

    /// Item after item, and the end; the answer is the bytes written.
    #[inline(always)]
    fn write<W: Way>(&self, out: &mut [u8]) -> u64 {
        sum(&self.order, |k| {
            let response = black_box(&self.responses[k]);
            let mut at = 0;
            for Listed { id, uri, text } in &response.items {
                at += W::write_item(black_box(out), at, response.kind, *id, uri, text).unwrap_or(0);
            }
            let texts = response.texts();
            let Answered { kind, status, error, .. } = response;
            let end = W::write_end(black_box(out), at, *kind, texts, *status, error);
            (at + end.unwrap_or(0)) as u64
        })
    }
}

fn longest(all: &[Vec<u8>]) -> usize {
    all.iter().map(Vec::len).max().unwrap_or(0)
}
