//! How fast the two are: tables of ratios that were taken in one run, or in several.

mod counting;
mod growth;
mod options;
mod parts;
mod reading;
mod requests;
mod responses;
mod rounds;
mod stack;
mod stepping;
mod strings;
mod table;
mod typed;
mod writing;

use crate::library::{parts::ASSEMBLY, SESSION};
use bench::inputs::{day, full, shuffled, small, Input};
use table::{grouped, Cell, Row, Table};

/// Calls in one pass over a set.
const CALLS: usize = 6_000;

/// Takes all figures so many times, and prints them.
pub fn run(runs: usize) {
    let mut tables = take(1, runs);
    for run in 2..=runs {
        let again = take(run, runs);
        tables.iter_mut().zip(&again).for_each(|(table, again)| table.widen(again));
    }
    head(runs);
    for table in tables {
        println!();
        print!("{table}");
    }
}

/// How the figures were taken.
fn head(runs: usize) {
    let taken = match runs {
        1 => "taken once".into(),
        _ => format!("lowest–highest of {runs} runs"),
    };
    let rounds = rounds::ROUNDS;
    println!(
        "
The other's time over the library's ({taken}, each the median of {rounds} rounds):
above 1.0 the library is faster. Same inputs in the same order, turn by turn, all built for
release; outputs are not cleared. Called: plain code behind the boundary that the library has.
Inlined: plain code where its result is used. Plain strings go byte by byte, or in runs between
the escapes where a row says so; in requests and responses, in runs. Copy: one memory move of
what is stored, to the same memory; - where no bytes move."
    );
}

fn take(run: usize, runs: usize) -> [Table; 3] {
    eprintln!("timing, run {run} of {runs}");
    [operations(), growth(), sizes()]
}

fn operations() -> Table {
    let sets = [
        ("a message, 8 to 64 bytes, all shapes", small()),
        ("ItemPart, 10,248 bytes", full(360)),
        ("Execute, 10,248 bytes", full(300)),
        ("BulkLoadPortion, 10,248 bytes", full(410)),
        ("SetOptions, 10,248 bytes", full(530)),
    ];
    let mut rows = each(&sets, "reading", reading::row);
    rows.push(options::row(&full(530)));
    rows.extend(each(&sets, "writing", writing::row));
    rows.push(stepping::row(&day()));
    rows.push(counting::row());
    rows.extend(parts::rows());
    rows.extend(typed::rows());
    rows.extend(strings::rows());
    rows.extend(requests::rows());
    rows.extend(responses::rows());
    Table { head: &["operation", "plain, called", "plain, inlined", "copy"], rows }
}

/// A row for each set of messages.
fn each(
    sets: &[(&str, Vec<Input>)],
    work: &str,
    row: fn(String, &[Input], &[usize]) -> Row,
) -> Vec<Row> {
    let row = |(name, set): &(&str, Vec<Input>)| {
        row(format!("{work} {name}"), set, &shuffled(set.len(), CALLS))
    };
    sets.iter().map(row).collect()
}

fn growth() -> Table {
    let row = |(messages, ratio)| {
        Row::new(format!("in a session of {}", grouped(messages)), [Cell::ratio(ratio)])
    };
    let rows = growth::ratios().into_iter().map(row).collect();
    Table { head: &["time of a step over that among 1,000 messages", "ratio"], rows }
}

fn sizes() -> Table {
    let mut rows = vec![
        Row::new("kept by the caller: a session", [Cell::Bytes(SESSION)]),
        Row::new("kept by the caller: an assembly", [Cell::Bytes(8 * ASSEMBLY)]),
    ];
    let calls = stack::uses().into_iter();
    rows.extend(calls.map(|(n, bytes)| Row::new(format!("stack: {n}"), [Cell::Bytes(bytes)])));
    Table { head: &["memory", "bytes"], rows }
}
