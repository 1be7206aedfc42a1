//! Writing, into one output that is larger than every message and is not
//! cleared between writes.

use super::rounds::{self, copy, sum};
use super::table::Row;
use crate::{called, library};
use bench::inputs::Input;
use bench::plain::{self, Message, Value, BODY_MAX, HEAD};
use bench::values::{value_of, OptionLists};
use std::cell::RefCell;
use std::hint::black_box;

/// Against the plain writers as they are called, one function for each shape, and as they are
/// inlined; and a copy of each message.
pub fn row(name: String, set: &[Input], order: &[usize]) -> Row {
    let messages: Vec<_> = set.iter().map(read).collect();
    let lists: Vec<_> = messages.iter().map(|m| OptionLists::of(&m.body)).collect();
    let calls = messages.iter().zip(&lists);
    let calls: Vec<Call> = calls.map(|(m, l)| (m.instruction, value_of(&m.body, l))).collect();
    // One output for all, so that they do not differ in how it is aligned.
    let out = RefCell::new(vec![0; HEAD + BODY_MAX]);
    let library = || pass(library::write, &mut out.borrow_mut(), &calls, order);
    let called = || pass(called::write, &mut out.borrow_mut(), &calls, order);
    let inlined = || pass(plain::write, &mut out.borrow_mut(), &calls, order);
    let copies = || order.iter().for_each(|&k| copy(&set[k].bytes, &mut out.borrow_mut()));
    let ratios = [rounds::ratio(called, library), rounds::ratio(inlined, library)];
    Row::ratios(name, ratios, Some(rounds::copy_ratio(copies, library)))
}

fn read(input: &Input) -> Message<'_> {
    plain::read(input.side, &input.bytes).expect("a sound message")
}

/// An instruction, and what to write as its body.
type Call<'a> = (u32, Value<'a>);

/// All calls in their order; the answer is the sum of the bytes written.
fn pass<W>(write: W, out: &mut [u8], calls: &[Call], order: &[usize]) -> u64
where
    W: Fn(&mut [u8], u32, &Value) -> Result<usize, u8>,
{
    sum(order, |k| {
        let (instruction, value) = black_box(&calls[k]);
        let answer = write(black_box(out), *instruction, value);
        answer.map_or_else(u64::from, |count| count as u64)
    })
}
