//! Reading. Both results are used alike: a match on the shape, then a sum over
//! instruction, count, numbers, and the places and lengths of all parts.

use super::rounds::{self, sum};
use super::table::Row;
use crate::called;
use crate::library::{self, field, FIELDS};
use bench::inputs::Input;
use bench::plain::{self, Body, Message, Shape};
use std::hint::black_box;

pub fn row(name: String, set: &[Input], order: &[usize]) -> Row {
    Row::ratios(name, [called(set, order), inlined(set, order)], None)
}

/// Against the plain reader as it is called, told as the same numbers.
fn called(set: &[Input], order: &[usize]) -> f64 {
    // Lent to every call and not cleared in between.
    let (mut plain, mut fields) = ([0; FIELDS], [0; FIELDS]);
    rounds::ratio(
        || sum(order, |k| behind(&set[k], &mut plain)),
        || sum(order, |k| library(&set[k], &mut fields)),
    )
}

/// Against the plain reader as it is inlined where its result is used.
fn inlined(set: &[Input], order: &[usize]) -> f64 {
    let mut fields = [0; FIELDS];
    rounds::ratio(
        || sum(order, |k| plain(&set[k])),
        || sum(order, |k| library(&set[k], &mut fields)),
    )
}

fn behind(input: &Input, fields: &mut [u64; FIELDS]) -> u64 {
    let input = black_box(input);
    match called::read(input.side, &input.bytes, fields) {
        Ok(count) => weigh_fields(count, fields),
        Err(number) => number.into(),
    }
}

fn plain(input: &Input) -> u64 {
    let input = black_box(input);
    match plain::read(input.side, &input.bytes) {
        Ok(message) => weigh_message(&input.bytes, &message),
        Err(number) => number.into(),
    }
}

fn library(input: &Input, fields: &mut [u64; FIELDS]) -> u64 {
    let input = black_box(input);
    match library::read(input.side as u8, &input.bytes, fields) {
        Ok(count) => weigh_fields(count, fields),
        Err(number) => number.into(),
    }
}

pub fn weigh_message(bytes: &[u8], message: &Message) -> u64 {
    let weigh = |part: &[u8]| {
        let start = part.as_ptr() as usize - bytes.as_ptr() as usize;
        (start + part.len()) as u64
    };
    let body = match message.body {
        Body::Empty => 0,
        Body::Session { major, minor, user, database } => {
            u64::from(major) + u64::from(minor) + weigh(user) + weigh(database)
        }
        Body::Text(text) => weigh(text),
        Body::Statement { format, text } => u64::from(format) + weigh(text),
        Body::Coded { code, text } => u64::from(code) + weigh(text),
        Body::Options(pairs) => pairs.count() as u64 + weigh(pairs.region()),
        Body::Item { class, kind, url, part } => {
            u64::from(class) + u64::from(kind) + weigh(part) + url.map_or(0, weigh)
        }
    };
    u64::from(message.instruction) + message.count as u64 + body
}

pub fn weigh_fields(count: usize, fields: &[u64; FIELDS]) -> u64 {
    const SESSION: u64 = Shape::Session as u64;
    const TEXT: u64 = Shape::Text as u64;
    const STATEMENT: u64 = Shape::Statement as u64;
    const CODED: u64 = Shape::Coded as u64;
    const OPTIONS: u64 = Shape::Options as u64;
    const ITEM: u64 = Shape::Item as u64;
    let first = || fields[field::START_1] + fields[field::LENGTH_1];
    let second = || fields[field::START_2] + fields[field::LENGTH_2];
    let body = match fields[field::SHAPE] {
        SESSION => fields[field::A] + fields[field::B] + first() + second(),
        TEXT => first(),
        STATEMENT | CODED => fields[field::A] + first(),
        OPTIONS => fields[field::COUNT] + first(),
        ITEM => {
            let url = if fields[field::HAS_URL] == 1 { second() } else { 0 };
            fields[field::A] + fields[field::B] + first() + url
        }
        _ => 0,
    };
    fields[field::INSTRUCTION] + count as u64 + body
}
