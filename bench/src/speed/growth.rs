//! What a step costs as the session grows: a session that goes on and on, timed at several lengths.

use super::rounds::median;
use crate::library::{self, FIELDS, SESSION};
use bench::inputs::{endless, Input};
use std::hint::black_box;
use std::time::Instant;

/// The length that the others are held against.
const USUAL: usize = 1_000;
const LENGTHS: [usize; 7] = [10, 100, 1_000, 10_000, 100_000, 1_000_000, 10_000_000];
/// Messages that are stepped for one timing, at least.
const ENOUGH: usize = 1_000_000;
const ROUNDS: usize = 9;

/// Each length, and the time of one step over that in a session of the usual length, turn by turn.
pub fn ratios() -> Vec<(usize, f64)> {
    let (start, cycle) = endless();
    let time = |messages| step_time(&start, &cycle, messages);
    let ratio = |messages| median((0..ROUNDS).map(|_| time(messages) / time(USUAL)).collect());
    LENGTHS.iter().map(|&messages| (messages, ratio(messages))).collect()
}

/// Seconds of one step in sessions of so many messages.
fn step_time(start: &[Input], cycle: &[Input], messages: usize) -> f64 {
    let sessions = ENOUGH.div_ceil(messages);
    let begun = Instant::now();
    for _ in 0..sessions {
        black_box(session(start, cycle, messages));
    }
    begun.elapsed().as_secs_f64() / (sessions * messages) as f64
}

/// How many of the messages a session takes: all of them.
fn session(start: &[Input], cycle: &[Input], messages: usize) -> usize {
    let (mut session, mut fields) = ([0; SESSION], [0; FIELDS]);
    // The record is long enough.
    let _ = library::fresh(&mut session);
    let all = start.iter().chain(cycle.iter().cycle()).take(messages);
    let taken = all
        .filter(|input| {
            let bytes = black_box(&input.bytes);
            library::step(&mut session, input.side as u8, bytes, &mut fields).is_ok()
        })
        .count();
    assert_eq!(taken, messages, "a message was refused");
    taken
}
