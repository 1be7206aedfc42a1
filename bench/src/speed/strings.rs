//! BaseX strings, against both plain ways: byte by byte, and in runs between the escapes.

use super::rounds::{self, copy, sum};
use super::table::{Cell, Row};
use crate::called::basex as called;
use crate::library::basex as library;
use bench::inputs::strings::{dense, pieces, xml};
use bench::inputs::{big_text, shuffled};
use bench::plain::basex::{bytes, runs, Place};
use std::cell::RefCell;
use std::hint::black_box;

/// Bytes that are written or decoded in one pass, at least.
const BYTES: usize = 50_000;

pub fn rows() -> Vec<Row> {
    let works = [
        ("XML, 1,000,000 bytes", Work::new(vec![xml()])),
        ("random, 1,000,000 bytes", Work::new(vec![big_text()])),
        ("zeros, 1,000,000 bytes", Work::new(vec![vec![0; 1_000_000]])),
        ("one in eight 00 or FF", Work::new(vec![dense(8)])),
        ("one in 5,000 00 or FF", Work::new(vec![dense(5_000)])),
        ("XML, 8 bytes", Work::new(pieces(8))),
        ("XML, 32 bytes", Work::new(pieces(32))),
    ];
    let [first, .., last] = &works;
    let written = works.iter().flat_map(|(name, work)| work.written(name));
    let decoded = works.iter().flat_map(|(name, work)| work.decoded(name));
    let judged = [first, last].into_iter().flat_map(|(name, work)| work.judged(name));
    let measured = [first, last].into_iter().flat_map(|(name, work)| work.measured(name));
    written.chain(decoded).chain(judged).chain(measured).collect()
}

/// Against the plain code by bytes and in runs, each called and inlined; the copy stands once.
fn two_rows(name: String, by_bytes: [f64; 2], in_runs: [f64; 2], copy: Option<f64>) -> [Row; 2] {
    let [called, inlined] = in_runs.map(Cell::ratio);
    let above = copy.map_or(Cell::None, |_| Cell::Above);
    let runs = Row::new("the same, against runs", [called, inlined, above]);
    [Row::ratios(name, by_bytes, copy), runs]
}

/// Texts, the strings that they make, and the order in which they are taken.
struct Work {
    texts: Vec<Vec<u8>>,
    strings: Vec<Vec<u8>>,
    order: Vec<usize>,
}

impl Work {
    fn new(texts: Vec<Vec<u8>>) -> Self {
        let strings = texts.iter().map(|text| spelled(text)).collect();
        let total: usize = texts.iter().map(Vec::len).sum();
        let order = shuffled(texts.len(), texts.len() * BYTES.div_ceil(total));
        Self { texts, strings, order }
    }

    fn written(&self, name: &str) -> [Row; 2] {
        let by_bytes = [self.writing(called::write_by_bytes), self.writing(bytes::write_string)];
        let in_runs = [self.writing(called::write_in_runs), self.writing(runs::write_string)];
        let copy = self.copying(&self.strings, |out| self.write(library::write_string, out));
        two_rows(format!("writing a string, {name}"), by_bytes, in_runs, Some(copy))
    }

    fn decoded(&self, name: &str) -> [Row; 2] {
        let by_bytes = [self.decoding(called::decode_by_bytes), self.decoding(bytes::decode)];
        let in_runs = [self.decoding(called::decode_in_runs), self.decoding(runs::decode)];
        let copy = self.copying(&self.texts, |out| self.decode(library::decode, out));
        two_rows(format!("decoding a string, {name}"), by_bytes, in_runs, Some(copy))
    }

    fn judged(&self, name: &str) -> [Row; 2] {
        let by_bytes = [self.judging(called::judge_by_bytes), self.judging(bytes::judge)];
        let in_runs = [self.judging(called::judge_in_runs), self.judging(runs::judge)];
        two_rows(format!("judging a string, {name}"), by_bytes, in_runs, None)
    }

    fn measured(&self, name: &str) -> [Row; 2] {
        let by_bytes =
            [self.measuring(called::measure_by_bytes), self.measuring(bytes::string_len)];
        let in_runs = [self.measuring(called::measure_in_runs), self.measuring(runs::string_len)];
        two_rows(format!("measuring a string, {name}"), by_bytes, in_runs, None)
    }

    /// A copy of all that is stored, each piece in one move.
    fn copying(&self, stored: &[Vec<u8>], work: impl Fn(&mut [u8]) -> u64) -> f64 {
        let out = RefCell::new(vec![0; longest(stored)]);
        let copies = || self.order.iter().for_each(|&k| copy(&stored[k], &mut out.borrow_mut()));
        rounds::copy_ratio(copies, || work(&mut out.borrow_mut()))
    }

    #[inline(always)]
    fn writing(&self, plain: impl Fn(&mut [u8], usize, &[u8]) -> Result<usize, u8>) -> f64 {
        // One output for both, so that they do not differ in how it is aligned.
        let out = RefCell::new(vec![0; longest(&self.strings)]);
        rounds::ratio(
            || self.write(&plain, &mut out.borrow_mut()),
            || self.write(library::write_string, &mut out.borrow_mut()),
        )
    }

    #[inline(always)]
    fn write(
        &self,
        write: impl Fn(&mut [u8], usize, &[u8]) -> Result<usize, u8>,
        out: &mut [u8],
    ) -> u64 {
        sum(&self.order, |k| {
            let answer = write(black_box(out), 0, black_box(&self.texts[k]));
            answer.map_or_else(u64::from, |count| count as u64)
        })
    }

    #[inline(always)]
    fn decoding(&self, plain: impl Fn(&[u8], usize, &mut [u8], usize) -> Read) -> f64 {
        let out = RefCell::new(vec![0; longest(&self.texts)]);
        rounds::ratio(
            || self.decode(&plain, &mut out.borrow_mut()),
            || self.decode(library::decode, &mut out.borrow_mut()),
        )
    }

    #[inline(always)]
    fn decode(
        &self,
        decode: impl Fn(&[u8], usize, &mut [u8], usize) -> Read,
        out: &mut [u8],
    ) -> u64 {
        sum(&self.order, |k| weigh(decode(black_box(&self.strings[k]), 0, black_box(out), 0)))
    }

    #[inline(always)]
    fn judging(&self, plain: impl Fn(&[u8], usize) -> Read) -> f64 {
        rounds::ratio(
            || sum(&self.order, |k| weigh(plain(black_box(&self.strings[k]), 0))),
            || sum(&self.order, |k| weigh(library::judge(black_box(&self.strings[k]), 0))),
        )
    }

    #[inline(always)]
    fn measuring(&self, plain: impl Fn(&[u8]) -> usize) -> f64 {
        rounds::ratio(
            || sum(&self.order, |k| plain(black_box(&self.texts[k])) as u64),
            || sum(&self.order, |k| library::string_len(black_box(&self.texts[k])) as u64),
        )
    }
}

type Read = Result<Place, u8>;

fn weigh(read: Read) -> u64 {
    read.map_or_else(u64::from, |place| (place.len + place.next) as u64)
}

fn spelled(text: &[u8]) -> Vec<u8> {
    let mut string = vec![0; bytes::string_len(text)];
    bytes::write_string(&mut string, 0, text).expect("there is room");
    string
}

fn longest(all: &[Vec<u8>]) -> usize {
    all.iter().map(Vec::len).max().unwrap_or(0)
}
