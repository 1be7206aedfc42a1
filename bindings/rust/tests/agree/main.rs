//! More than a million valid and damaged inputs, given to the crate and to plain Rust: every answer
//! and every byte of lent memory has to be the same. The plain side is that of `bench/`, and so are
//! Sedna's inputs, typed values among them; BaseX's are here. The inputs are the same in every run.

mod cutting;
mod encoded;
mod joining;
mod lent;
mod reading;
mod requests;
mod responses;
mod rng;
mod same;
mod stepping;
mod streaming;
mod strings;
mod tally;
mod texts;
mod values;
mod writing;

use std::collections::BTreeSet;
use std::time::Instant;
use tally::Tally;

const LEAST: usize = 1_000_000;

fn main() {
    let start = Instant::now();
    let parts: [fn() -> Tally; 13] = [
        reading::run,
        writing::run,
        stepping::run,
        cutting::run,
        joining::run,
        values::run,
        strings::run,
        requests::read,
        requests::write,
        responses::read,
        responses::write,
        streaming::calls,
        streaming::streams,
    ];
    let mut total = 0;
    let mut refusals = BTreeSet::new();
    for part in parts {
        let start = Instant::now();
        let tally = part();
        println!("{tally}, {:.1} s", start.elapsed().as_secs_f32());
        total += tally.inputs();
        refusals.extend(tally.refusals());
    }
    println!("agree: {total} inputs, all alike, {:.1} s", start.elapsed().as_secs_f32());
    assert!(total >= LEAST, "fewer than a million inputs");
    assert!(refusals.into_iter().eq(1..=16), "a refusal was never met");
}
