//! BaseX requests, read with their texts decoded, and written.

use super::rounds::{self, copy, sum};
use super::table::Row;
use crate::called::basex as called;
use crate::library::basex::{self as library, REQUEST};
use bench::inputs::basex::{large_request, small_requests, Asked, BIND, COMMAND, QUERY};
use bench::inputs::shuffled;
use bench::plain::basex as plain;
use std::cell::RefCell;
use std::hint::black_box;

/// Calls in one pass over small requests.
const CALLS: usize = 2_000;

pub fn rows() -> Vec<Row> {
    let works = [
        ("a COMMAND request, 8 to 64 bytes", Work::new(small_requests(COMMAND, 1), CALLS)),
        ("a QUERY request, 8 to 64 bytes", Work::new(small_requests(QUERY, 1), CALLS)),
        ("a BIND request, 4 times 8 to 64 bytes", Work::new(small_requests(BIND, 4), CALLS)),
        ("an ADD request, XML, 1,000,000 bytes", Work::new(vec![large_request()], 1)),
    ];
    let reading = works.iter().map(|(name, work)| work.reading(format!("reading {name}")));
    let writing = works.iter().map(|(name, work)| work.writing(format!("writing {name}")));
    reading.chain(writing).collect()
}

/// Requests, their bytes, all decoded texts of each, and the order in which they are taken.
struct Work {
    requests: Vec<Asked>,
    bytes: Vec<Vec<u8>>,
    texts: Vec<Vec<u8>>,
    order: Vec<usize>,
}

impl Work {
    fn new(requests: Vec<Asked>, calls: usize) -> Self {
        let bytes = requests.iter().map(Asked::bytes).collect();
        let texts = requests.iter().map(|request| request.texts.concat()).collect();
        let order = shuffled(requests.len(), calls);
        Self { requests, bytes, texts, order }
    }

    fn reading(&self, name: String) -> Row {
        // One output for all, so that they do not differ in how it is aligned.
        let out = RefCell::new(vec![0; longest(&self.texts)]);
        let library = || self.read(library_read, &mut out.borrow_mut());
        let called = || self.read(called_read, &mut out.borrow_mut());
        let inlined = || self.read(plain_read, &mut out.borrow_mut());
        let copies =
            || self.order.iter().for_each(|&k| copy(&self.texts[k], &mut out.borrow_mut()));
        let ratios = [rounds::ratio(called, library), rounds::ratio(inlined, library)];
        Row::ratios(name, ratios, Some(rounds::copy_ratio(copies, library)))
    }

    #[inline(always)]
    fn read(&self, read: impl Fn(&[u8], &mut [u8]) -> Result<u64, u8>, out: &mut [u8]) -> u64 {
        sum(&self.order, |k| {
            read(black_box(&self.bytes[k][..]), black_box(out)).unwrap_or_else(u64::from)
        })
    }

    fn writing(&self, name: String) -> Row {
        let out = RefCell::new(vec![0; longest(&self.bytes)]);
        let library = || self.write(library::write_request, &mut out.borrow_mut());
        let called = || self.write(called::write_request, &mut out.borrow_mut());
        let inlined = || self.write(plain::write_request, &mut out.borrow_mut());
        let copies =
            || self.order.iter().for_each(|&k| copy(&self.bytes[k], &mut out.borrow_mut()));
        let ratios = [rounds::ratio(called, library), rounds::ratio(inlined, library)];
        Row::ratios(name, ratios, Some(rounds::copy_ratio(copies, library)))
    }

    #[inline(always)]
    fn write(
        &self,
        write: impl Fn(&mut [u8], u8, [&[u8]; 4]) -> Result<usize, u8>,
        out: &mut [u8],
    ) -> u64 {
        sum(&self.order, |k| {
            let request = black_box(&self.requests[k]);
            let answer = write(black_box(out), request.kind, request.texts());
            answer.map_or_else(u64::from, |count| count as u64)
        })
    }
}

/// A sum over the answer and what is told.
#[inline(always)]
fn library_read(bytes: &[u8], out: &mut [u8]) -> Result<u64, u8> {
    let mut told = [0; REQUEST];
    let count = library::read_request(bytes, out, &mut told)?;
    Ok(count as u64 + told.iter().sum::<u64>())
}

#[inline(always)]
fn called_read(bytes: &[u8], out: &mut [u8]) -> Result<u64, u8> {
    let mut told = [0; REQUEST];
    let count = called::read_request(bytes, out, &mut told)?;
    Ok(count as u64 + told.iter().sum::<u64>())
}

#[inline(always)]
fn plain_read(bytes: &[u8], out: &mut [u8]) -> Result<u64, u8> {
    let read = plain::read_request(bytes, out)?;
    let texts: usize = read.texts.iter().map(|text| text.len()).sum();
    Ok(u64::from(read.kind) + (texts + read.read) as u64)
}

fn longest(all: &[Vec<u8>]) -> usize {
    all.iter().map(Vec::len).max().unwrap_or(0)
}
