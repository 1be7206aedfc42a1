//! Typed values of items, and the order of each instant and the one before it.

use crate::lent::hex;
use crate::tally::Tally;
use bench::inputs::typed::items;
use bench::plain::typed::{self as plain, typed, Typed};
use keddorimp::sedna::{value, Instant, Value};
use keddorimp::Refusal;

pub fn run() -> Tally {
    let mut tally = Tally::new("values");
    let mut last = plain::Instant { seconds: 0, nanos: 0 };
    for item in items() {
        let plain = typed(item.class, item.kind, &item.text);
        let ours = value(item.class, item.kind, &item.text).map_err(Refusal::number);
        assert!(same(&ours, &plain), "{ours:?} {plain:?}: {}", hex(&item.text));
        if let Ok(Typed::Instant(instant)) = plain {
            assert_eq!(at(instant).cmp(&at(last)), instant.cmp(&last), "{instant:?} {last:?}");
            last = instant;
        }
        tally.count(&plain);
    }
    tally.complete(&[15, 16])
}

fn at(instant: plain::Instant) -> Instant {
    Instant::new(instant.seconds, instant.nanos).expect("nanoseconds of one second")
}

/// Doubles by their bits.
fn same(ours: &Result<Value, u8>, plain: &Result<Typed, u8>) -> bool {
    match (*ours, *plain) {
        (Ok(Value::Whole(a)), Ok(Typed::Whole(b))) => a == b,
        (Ok(Value::At(a)), Ok(Typed::Instant(b))) => a == at(b),
        (Ok(Value::Truth(a)), Ok(Typed::Truth(b))) => a == b,
        (Ok(Value::Double(a)), Ok(Typed::Double(b))) => a.to_bits() == b.to_bits(),
        (Err(a), Err(b)) => a == b,
        _ => false,
    }
}
