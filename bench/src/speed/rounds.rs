//! Timing two ways of doing the same work, turn by turn.

use std::hint::black_box;
use std::time::{Duration, Instant};

pub const ROUNDS: usize = 41;

/// A round shorter than this says little.
const ENOUGH: Duration = Duration::from_millis(6);

/// Median of the rounds' ratios, first time over second time. One pass of each answers a sum over
/// its results, the same for both.
pub fn ratio(mut first: impl FnMut() -> u64, mut second: impl FnMut() -> u64) -> f64 {
    let passes = passes(&mut first, &mut second);
    let mut ratios = Vec::with_capacity(ROUNDS);
    for round in 0..ROUNDS {
        // Whoever comes second may find the caches warmer.
        let (a, b) = if round % 2 == 0 {
            let a = time(passes, &mut first);
            (a, time(passes, &mut second))
        } else {
            let b = time(passes, &mut second);
            (time(passes, &mut first), b)
        };
        assert_eq!(a.1, b.1, "the two did not do the same work");
        ratios.push(a.0.as_secs_f64() / b.0.as_secs_f64());
    }
    median(ratios)
}

/// A copy's time over that of the work; having no result, the copy is given the work's.
pub fn copy_ratio(mut copy: impl FnMut(), mut work: impl FnMut() -> u64) -> f64 {
    let answer = work();
    ratio(
        || {
            copy();
            answer
        },
        work,
    )
}

/// One memory move of all of the bytes to the front of the output.
pub fn copy(bytes: &[u8], out: &mut [u8]) {
    black_box(&mut out[..bytes.len()]).copy_from_slice(black_box(bytes));
}

pub fn median(mut values: Vec<f64>) -> f64 {
    values.sort_by(f64::total_cmp);
    values[values.len() / 2]
}

/// As many passes as take long enough; also the warm-up.
fn passes(first: &mut impl FnMut() -> u64, second: &mut impl FnMut() -> u64) -> usize {
    let mut passes = 1;
    while time(passes, first).0 + time(passes, second).0 < ENOUGH {
        passes *= 2;
    }
    passes
}

fn time(passes: usize, work: &mut impl FnMut() -> u64) -> (Duration, u64) {
    let mut sum = 0u64;
    let start = Instant::now();
    for _ in 0..passes {
        sum = sum.wrapping_add(work());
    }
    (start.elapsed(), sum)
}

/// The results of all calls, each used as soon as it is there.
pub fn sum(order: &[usize], mut call: impl FnMut(usize) -> u64) -> u64 {
    order.iter().fold(0, |sum: u64, &k| sum.wrapping_add(black_box(call(k))))
}
