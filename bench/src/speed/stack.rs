//! How much stack a call takes: the stack below it is filled with a pattern, and what the call has
//! written over is looked for afterwards, beyond what no call at all writes over. Exact to some tens
//! of bytes; a call that leaves the far end of its frame unwritten takes more than is seen.

use crate::library::basex::{self, REQUEST, RESPONSE};
use crate::library::parts::{self, ASSEMBLY, TOLD};
use crate::library::typed;
use crate::library::{self, FIELDS, SESSION};
use bench::plain::Value;
use std::hint::black_box;
use std::thread;

const LOOKED_AT: usize = 1 << 17;
const PATTERN: u8 = 0xA5;
/// Not looked at: the frames of the functions here.
const OWN: usize = 512;

/// A call, and the bytes of stack that were seen to be written.
type Use = (&'static str, usize);

/// Every kind of call, on a thread of its own, whose stack is there from the start.
pub fn uses() -> Vec<Use> {
    let calls = || [messages(), parts(), values(), strings(), requests(), responses()].concat();
    let thread = thread::Builder::new().stack_size(8 * LOOKED_AT).spawn(calls);
    thread.expect("a thread").join().expect("every call is taken")
}

fn item_part() -> Vec<u8> {
    let mut message = vec![0; 10_013];
    let text = [b'x'; 10_000];
    let written = library::write(&mut message, 360, &Value::Text(&text));
    assert_eq!(written, Ok(message.len()));
    message
}

fn messages() -> Vec<Use> {
    let message = item_part();
    let (mut out, text) = (vec![0; message.len()], vec![b'x'; 10_000]);
    let (mut fields, mut session) = ([0; FIELDS], [0; SESSION]);
    let start = [0, 0, 0, 0x6E, 0, 0, 0, 0];
    let pair = [0, 0, 0, 1, 0, 0, 0, 0, 1, b'x'];
    vec![
        ("reading", used(|| library::read(2, &message, &mut fields).is_ok())),
        ("an option", used(|| library::option(&pair, (0, 10), 0, &mut [0; 3]) == Ok(1))),
        ("writing", used(|| library::write(&mut out, 360, &Value::Text(&text)).is_ok())),
        (
            "the step",
            used(|| {
                library::fresh(&mut session).is_ok()
                    && library::step(&mut session, 1, &start, &mut fields).is_ok()
            }),
        ),
    ]
}

fn parts() -> Vec<Use> {
    let message = item_part();
    let (mut out, text) = (vec![0; message.len()], vec![b'x'; 10_000]);
    let (mut assembly, mut told) = ([0; ASSEMBLY], [0; TOLD]);
    vec![
        ("cutting", used(|| parts::write_item_part(&mut out, &text, 0).is_ok())),
        (
            "joining",
            used(|| {
                parts::open(&mut assembly, 2).is_ok()
                    && parts::join(&mut assembly, &mut out, 2, &message, &mut told).is_ok()
            }),
        ),
    ]
}

fn values() -> Vec<Use> {
    let (mut numbers, mut real) = ([0; typed::NUMBERS], [0.0; typed::REALS]);
    let mut value =
        |kind, text: &[u8]| used(|| typed::value(1, kind, text, &mut numbers, &mut real).is_ok());
    vec![
        ("the value of an instant", value(10, b"2024-05-01T09:00:00.123+02:00")),
        ("the value of a double", value(22, b"-21.0055")),
    ]
}

fn strings() -> Vec<Use> {
    let (mut out, text) = (vec![0; 20_000], vec![b'x'; 10_000]);
    let string = [0x61, 0xFF, 0xFF, 0];
    vec![
        ("measuring a string", used(|| basex::string_len(&text) > 0)),
        ("writing a string", used(|| basex::write_string(&mut out, 0, &text).is_ok())),
        ("judging a string", used(|| basex::judge(&string, 0).is_ok())),
        ("decoding a string", used(|| basex::decode(&string, 0, &mut out, 0).is_ok())),
    ]
}

fn requests() -> Vec<Use> {
    let bind = [3, 0x61, 0xFF, 0xFF, 0, 0, 0x62, 0, 0];
    let (mut out, mut told) = ([0; 99], [0; REQUEST]);
    let texts: [&[u8]; 4] = [b"a\xFF", b"", b"b", b""];
    vec![
        ("reading a request", used(|| basex::read_request(&bind, &mut out, &mut told).is_ok())),
        ("writing a request", used(|| basex::write_request(&mut out, 3, texts).is_ok())),
    ]
}

fn responses() -> Vec<Use> {
    let full = [12, 0x75, 0, 0x61, 0xFF, 0xFF, 0, 0, 1, 0x65, 0];
    let (mut out, mut told) = ([0; 99], [0; RESPONSE]);
    vec![
        (
            "reading a response",
            used(|| basex::read_response(0x1F, &full, &mut out, &mut told).is_ok()),
        ),
        ("an item", used(|| basex::item(0x1F, &full, 0, &mut told).is_ok())),
        (
            "writing an item",
            used(|| basex::write_item(&mut out, 0, 0x1F, 12, b"u", b"a\xFF").is_ok()),
        ),
        ("writing an end", used(|| basex::write_end(&mut out, 0, 0x1F, [b""; 2], 1, b"e").is_ok())),
    ]
}

fn used(call: impl FnOnce() -> bool) -> usize {
    reached(call).saturating_sub(reached(|| black_box(true)))
}

fn reached(call: impl FnOnce() -> bool) -> usize {
    let here = 0u8;
    let top = (&raw const here).cast_mut();
    paint(top);
    assert!(deep(call), "the call was refused");
    seen(top)
}

/// Calls from below what is not looked at.
#[inline(never)]
fn deep(call: impl FnOnce() -> bool) -> bool {
    let mut above = [0u8; 2 * OWN];
    black_box(&mut above);
    let taken = call();
    black_box(&mut above);
    taken
}

/// Fills what lies below the frame of `reached`, but for what a leaf function may use itself.
#[inline(never)]
fn paint(top: *mut u8) {
    for k in OWN..LOOKED_AT {
        // SAFETY: the stack of this thread is larger by far, and nobody's frame lies there now.
        unsafe { top.sub(k).write_volatile(PATTERN) };
    }
}

/// How far down the pattern is gone.
#[inline(never)]
fn seen(top: *mut u8) -> usize {
    let gone = |&k: &usize| {
        // SAFETY: as in `paint`; a volatile read takes the bytes as the calls have left them.
        unsafe { top.sub(k).read_volatile() != PATTERN }
    };
    (OWN..LOOKED_AT).rev().find(gone).unwrap_or(0)
}
