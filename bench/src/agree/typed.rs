//! Typed values: the answer and what is told, against the plain code and, where there is a value,
//! against Rust's own reading of numbers; and how any two instants lie.

use super::{hex, Disagreement, Tally};
use crate::called::typed::{parse_double, parse_whole};
use crate::library::typed::{self as library, told, NUMBERS, REALS};
use bench::inputs::typed::{items, Item};
use bench::plain::refusal::NO_ROOM;
use bench::plain::typed::{typed, Instant, Typed};
use std::cmp::Ordering;

/// More numbers than are told, so that writing behind them shows, and what stands in them.
const LENT: usize = NUMBERS + 1;
const FILL: i64 = 99_999_999_999;
const REAL: f64 = 12_345.678;

pub fn compare(tally: &mut Tally) -> Result<(), Disagreement> {
    let mut last = Instant { seconds: 0, nanos: 0 };
    for (k, item) in items().enumerate() {
        let answer = value(&item, LENT, REALS + 1)?;
        tally.typed.add(answer.map(|value| told(value).0 as u32));
        if k % 16 == 0 {
            few(&item, tally)?;
        }
        if let Ok(Typed::Instant(instant)) = answer {
            order(instant, last, tally)?;
            last = instant;
        }
    }
    near(tally)
}

/// A call of both, with so many numbers and doubles lent; what both answer. Nothing is told on a
/// refusal, which too few numbers are, behind every other.
fn value(item: &Item, numbers: usize, reals: usize) -> Result<Result<Typed, u8>, Disagreement> {
    let Item { class, kind, text } = item;
    let enough = numbers >= NUMBERS && reals >= REALS;
    let plain = typed(*class, *kind, text).and_then(|v| if enough { Ok(v) } else { Err(NO_ROOM) });
    let (mut expected, mut real) = ([FILL; LENT], [REAL; REALS + 1]);
    let (mut lent, mut lent_real) = (expected, real);
    let answer = library::value(*class, *kind, text, &mut lent[..numbers], &mut lent_real[..reals]);
    let what = plain.map(|value| {
        let (what, told, double) = told(value);
        expected[..NUMBERS].copy_from_slice(&told);
        real[0] = double;
        what
    });
    if answer != what || lent != expected || lent_real.map(f64::to_bits) != real.map(f64::to_bits) {
        return Err(format!(
            "class {class} type {kind} {}\nplain:   {plain:?}\nlibrary: {answer:?} {lent:?} {lent_real:?}",
            hex(text)
        ));
    }
    match own(text, plain) {
        true => Ok(plain),
        false => {
            Err(format!("Rust's own reading is another: type {kind} {}, {plain:?}", hex(text)))
        }
    }
}

/// Rust's own reading gives the number too.
fn own(text: &[u8], value: Result<Typed, u8>) -> bool {
    match value {
        Ok(Typed::Whole(number)) => parse_whole(text) == Ok(number),
        Ok(Typed::Double(double)) => {
            parse_double(text).is_ok_and(|own| own.to_bits() == double.to_bits())
        }
        _ => true,
    }
}

/// The same item with too few numbers lent, or no double.
fn few(item: &Item, tally: &mut Tally) -> Result<(), Disagreement> {
    for (numbers, reals) in [(0, REALS), (NUMBERS - 1, REALS), (NUMBERS, 0), (0, 0)] {
        let answer = value(item, numbers, reals)?;
        tally.typed.add(answer.map(|value| told(value).0 as u32));
    }
    Ok(())
}

/// Both ways round, and each with itself.
fn order(a: Instant, b: Instant, tally: &mut Tally) -> Result<(), Disagreement> {
    for (a, b) in [(a, b), (b, a), (a, a)] {
        let order = a.cmp(&b);
        if library::compare(a, b) != order as i32 {
            return Err(format!("{a:?} and {b:?} are not {order:?}"));
        }
        tally.compared.add(Ok((order as i8 - Ordering::Less as i8) as u32));
    }
    Ok(())
}

/// Instants that differ by little, and the farthest numbers.
fn near(tally: &mut Tally) -> Result<(), Disagreement> {
    let seconds = [i64::MIN, -62_135_647_200, -1, 0, 1, 253_402_300_800, i64::MAX];
    let nanos = [0, 1, 500_000_000, 999_999_999, u32::MAX];
    let instants =
        seconds.into_iter().flat_map(|seconds| nanos.map(|nanos| Instant { seconds, nanos }));
    let instants: Vec<_> = instants.collect();
    instants.iter().try_for_each(|&a| instants.iter().try_for_each(|&b| order(a, b, tally)))
}
