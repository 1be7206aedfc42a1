//! Writing Sedna messages: calls of all kinds, and what was read written again.

use crate::lent::{hex, Outputs};
use crate::tally::Tally;
use bench::inputs::{inputs, requests};
use bench::plain::{self, Value};
use bench::values::{value_of, OptionLists};
use keddorimp::sedna::{
    write_coded, write_empty, write_item, write_options, write_session, write_statement,
    write_text, Instruction,
};
use keddorimp::Refusal;

pub fn run() -> Tally {
    let mut tally = Tally::new("writing");
    let mut outputs = Outputs::default();
    for request in requests() {
        let answer = compare(&mut outputs, request.room, request.instruction, &request.value());
        tally.count(&answer);
    }
    for input in inputs() {
        let Ok(message) = plain::read(input.side, &input.bytes) else { continue };
        let lists = OptionLists::of(&message.body);
        let value = value_of(&message.body, &lists);
        let answer = compare(&mut outputs, message.count, message.instruction, &value);
        let read = &input.bytes[..message.count];
        assert_eq!(answer, Ok(message.count), "{}", hex(read));
        assert_eq!(outputs.written(message.count), read);
        tally.count(&answer);
    }
    tally.complete(&[2, 8, 10, 11])
}

fn compare(
    outputs: &mut Outputs,
    room: usize,
    instruction: u32,
    value: &Value,
) -> Result<usize, u8> {
    outputs.compare(
        room,
        |out| write(out, Instruction(instruction), value),
        |out| plain::write(out, instruction, value),
        || format!("{instruction} {value:?}"),
    )
}

fn write<'o>(
    out: &'o mut [u8],
    instruction: Instruction,
    value: &Value,
) -> Result<&'o [u8], Refusal> {
    match *value {
        Value::Empty => write_empty(out, instruction),
        Value::Session { major, minor, user, database } => {
            write_session(out, instruction, [major, minor], user, database)
        }
        Value::Text(text) => write_text(out, instruction, text),
        Value::Statement { format, text } => write_statement(out, instruction, format, text),
        Value::Coded { code, text } => write_coded(out, instruction, code, text),
        Value::Options { ids, lengths, values } => {
            write_options(out, instruction, ids, lengths, values)
        }
        Value::Item { class, kind, url, part } => {
            write_item(out, instruction, class, kind, url, part)
        }
    }
}
