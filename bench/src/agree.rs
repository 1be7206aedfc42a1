//! Both implementations on the same inputs: every answer and every byte of
//! lent memory has to be the same.

mod cutting;
mod joining;
mod reading;
mod replies;
mod requests;
mod responses;
mod stepping;
mod strings;
mod tally;
mod told;
mod typed;
mod writing;

use bench::inputs::{inputs, Input};
use bench::plain::{self, Message};
use bench::values::{value_of, OptionLists};
pub use tally::Tally;
use writing::Outputs;

/// What the two did differently, and on which input.
pub type Disagreement = String;

/// Goes through all inputs, up to the first disagreement.
pub fn run() -> Result<Tally, Disagreement> {
    let mut tally = Tally::default();
    let mut outputs = Outputs::default();
    reading::bad_calls()?;
    reading::bad_option_calls()?;
    for input in inputs() {
        reading::compare(&input, &mut tally)?;
        if let Ok(message) = plain::read(input.side, &input.bytes) {
            write_again(&input, &message, &mut outputs, &mut tally)?;
        }
    }
    for request in bench::inputs::requests() {
        let value = request.value();
        outputs.compare(request.instruction, &value, request.room, &mut tally)?;
    }
    stepping::compare(&mut tally)?;
    cutting::compare(&mut tally)?;
    joining::compare(&mut tally)?;
    typed::compare(&mut tally)?;
    strings::compare(&mut tally)?;
    requests::compare(&mut tally)?;
    responses::compare(&mut tally)?;
    replies::compare(&mut tally)?;
    tally.complete()?;
    Ok(tally)
}

/// Writes what was read into an exact output, one that is a byte too short and
/// a larger one; what is written is what was read.
fn write_again(
    input: &Input,
    message: &Message,
    outputs: &mut Outputs,
    tally: &mut Tally,
) -> Result<(), Disagreement> {
    let lists = OptionLists::of(&message.body);
    let value = value_of(&message.body, &lists);
    let count = message.count;
    for room in [count, count - 1, count + 1 + count % 40] {
        outputs.compare(message.instruction, &value, room, tally)?;
        let same = outputs.plain().starts_with(&input.bytes[..count]);
        if same != (room >= count) {
            return Err(format!(
                "written otherwise than read, room {room}\ninput: {}",
                hex(&input.bytes)
            ));
        }
    }
    Ok(())
}

fn hex(bytes: &[u8]) -> String {
    bytes.iter().map(|byte| format!("{byte:02X}")).collect()
}
