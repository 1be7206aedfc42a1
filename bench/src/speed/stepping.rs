//! Stepping through a whole session, from a fresh record to a closed one. Results are used as in
//! reading; the order is the session's own.

use super::reading::{weigh_fields, weigh_message};
use super::rounds;
use super::table::{grouped, Row};
use crate::called;
use crate::library::{self, FIELDS, SESSION};
use bench::inputs::Input;
use bench::plain::Session;
use std::hint::black_box;

pub fn row(day: &[Input]) -> Row {
    let name = format!("the step, a session of {} messages", grouped(day.len()));
    Row::ratios(name, [called(day), inlined(day)], None)
}

/// Against the plain session as it is called, told as the same numbers.
fn called(day: &[Input]) -> f64 {
    // Lent to every call and not cleared in between.
    let (mut plain, mut fields) = ([0; FIELDS], [0; FIELDS]);
    rounds::ratio(|| behind(day, &mut plain), || library(day, &mut fields))
}

/// Against the plain session as it is inlined where its result is used.
fn inlined(day: &[Input]) -> f64 {
    let mut fields = [0; FIELDS];
    rounds::ratio(|| plain(day), || library(day, &mut fields))
}

fn behind(day: &[Input], fields: &mut [u64; FIELDS]) -> u64 {
    let mut session = Session::FRESH;
    called::fresh(&mut session);
    let weight =
        each(day, |input| match called::step(&mut session, input.side, &input.bytes, fields) {
            Ok(count) => weigh_fields(count, fields),
            Err(number) => number.into(),
        });
    weight + u64::from(called::closed(&session))
}

fn plain(day: &[Input]) -> u64 {
    let mut session = Session::FRESH;
    let weight = each(day, |input| match session.step(input.side, &input.bytes) {
        Ok(message) => weigh_message(&input.bytes, &message),
        Err(number) => number.into(),
    });
    weight + u64::from(session.closed())
}

fn library(day: &[Input], fields: &mut [u64; FIELDS]) -> u64 {
    let mut session = [0; SESSION];
    // The record is long enough.
    let _ = library::fresh(&mut session);
    let weight = each(day, |input| {
        match library::step(&mut session, input.side as u8, &input.bytes, fields) {
            Ok(count) => weigh_fields(count, fields),
            Err(number) => number.into(),
        }
    });
    weight + u64::from(library::closed(&session))
}

/// The results of one step after another.
fn each(day: &[Input], mut step: impl FnMut(&Input) -> u64) -> u64 {
    day.iter().fold(0, |sum: u64, input| sum.wrapping_add(black_box(step(black_box(input)))))
}
