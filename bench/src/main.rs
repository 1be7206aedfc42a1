//! Holds the library against the plain Rust implementation: first that both give the same answers,
//! then how fast they are. An argument says how many times the figures are taken.

mod agree;
mod called;
mod library;
mod speed;

use std::env;
use std::process::ExitCode;

fn main() -> ExitCode {
    let runs = env::args().nth(1).map_or(Ok(1), |runs| runs.parse());
    let Ok(runs @ 1..) = runs else {
        eprintln!("the argument is how many times the figures are taken, from 1");
        return ExitCode::FAILURE;
    };
    match agree::run() {
        Ok(tally) => println!("{tally}"),
        Err(disagreement) => {
            eprintln!("DISAGREE: {disagreement}");
            return ExitCode::FAILURE;
        }
    }
    speed::run(runs);
    ExitCode::SUCCESS
}
