//! Typed values of texts of usual shapes, against the plain code and, for numbers, against Rust's
//! own reading, which knows the type beforehand and has to see that the bytes are UTF-8.

use super::rounds::{self, sum};
use super::table::{Cell, Row};
use super::CALLS;
use crate::called::typed as called;
use crate::library::typed::{self as library, told, NUMBERS, REALS};
use bench::inputs::shuffled;
use bench::inputs::typed::{timed, Timed};
use bench::plain::typed::{typed, Instant};
use std::hint::black_box;
use std::str;

pub fn rows() -> Vec<Row> {
    timed().into_iter().flat_map(rows_of).chain([order()]).collect()
}

/// A row for the plain code, and one for Rust's own reading where there is one.
fn rows_of(set: Timed) -> Vec<Row> {
    let name = format!("the value of {}", set.name);
    let work = Work { order: shuffled(set.texts.len(), CALLS), set };
    let row =
        Row::ratios(name, [work.called(), work.against(|text| inlined(work.set.kind, text))], None);
    let own = match work.set.kind {
        24 | 50..=61 => [work.against(called_whole), work.against(own_whole)],
        22 => [work.against(called_double), work.against(own_double)],
        _ => return vec![row],
    };
    let [called, inlined] = own.map(Cell::ratio);
    vec![row, Row::new("the same, against Rust's parse", [called, inlined, Cell::None])]
}

struct Work {
    set: Timed,
    order: Vec<usize>,
}

impl Work {
    fn library(&self, numbers: &mut [i64; NUMBERS], real: &mut [f64; REALS]) -> u64 {
        sum(&self.order, |k| {
            let (kind, text) = black_box((self.set.kind, &self.set.texts[k]));
            weigh(library::value(1, kind, text, numbers, real), *numbers, real[0])
        })
    }

    /// Another way of reading a text; what it weighs is what the library's weighs.
    #[inline(always)]
    fn against(&self, call: impl Fn(&[u8]) -> u64) -> f64 {
        // Lent to every call and not cleared in between.
        let (mut numbers, mut real) = ([0; NUMBERS], [0.0; REALS]);
        rounds::ratio(
            || sum(&self.order, |k| call(black_box(&self.set.texts[k]))),
            || self.library(&mut numbers, &mut real),
        )
    }

    /// The plain code as it is called, told as the same numbers.
    fn called(&self) -> f64 {
        let (mut plain, mut double) = ([0; NUMBERS], 0.0);
        let (mut numbers, mut real) = ([0; NUMBERS], [0.0; REALS]);
        rounds::ratio(
            || {
                sum(&self.order, |k| {
                    let (kind, text) = black_box((self.set.kind, &self.set.texts[k]));
                    weigh(called::value(1, kind, text, &mut plain, &mut double), plain, double)
                })
            },
            || self.library(&mut numbers, &mut real),
        )
    }
}

fn weigh(what: Result<usize, u8>, [a, b]: [i64; NUMBERS], double: f64) -> u64 {
    match what {
        Ok(what) => weight(what, [a, b], double),
        Err(number) => number.into(),
    }
}

fn weight(what: usize, [a, b]: [i64; NUMBERS], double: f64) -> u64 {
    (what as u64).wrapping_add(a as u64).wrapping_add(b as u64).wrapping_add(double.to_bits())
}

#[inline(always)]
fn inlined(kind: u8, text: &[u8]) -> u64 {
    match typed(1, black_box(kind), text) {
        Ok(value) => {
            let (what, numbers, double) = told(value);
            weight(what, numbers, double)
        }
        Err(number) => number.into(),
    }
}

fn whole(number: i64) -> u64 {
    weight(1, [number, 0], 0.0)
}

fn double(double: f64) -> u64 {
    weight(4, [0, 0], double)
}

fn called_whole(text: &[u8]) -> u64 {
    called::parse_whole(text).map_or(0, whole)
}

fn called_double(text: &[u8]) -> u64 {
    called::parse_double(text).map_or(0, double)
}

#[inline(always)]
fn own_whole(text: &[u8]) -> u64 {
    str::from_utf8(text).ok().and_then(|text| text.parse().ok()).map_or(0, whole)
}

#[inline(always)]
fn own_double(text: &[u8]) -> u64 {
    str::from_utf8(text).ok().and_then(|text| text.parse().ok()).map_or(0, double)
}

/// Which of two instants is earlier, of all pairs in a row.
fn order() -> Row {
    let instants: Vec<_> = (0..1_000u32)
        .map(|k| Instant { seconds: i64::from(k * 7_919 % 100), nanos: k * 104_729 % 1_000 })
        .collect();
    let order = shuffled(instants.len() - 1, CALLS);
    let pair = |k: usize| black_box((instants[k], instants[k + 1]));
    let library = || {
        sum(&order, |k| {
            let (a, b) = pair(k);
            library::compare(a, b) as u64
        })
    };
    let called = || {
        sum(&order, |k| {
            let (a, b) = pair(k);
            called::compare(a, b) as i32 as u64
        })
    };
    let inlined = || {
        sum(&order, |k| {
            let (a, b) = pair(k);
            a.cmp(&b) as i32 as u64
        })
    };
    let ratios = [rounds::ratio(called, library), rounds::ratio(inlined, library)];
    Row::ratios("which of two instants is earlier", ratios, None)
}
