//! The session steps: answer, numbers, what becomes of the record, whether it is closed, and whose
//! turn it is.

use super::reading::{flat, Lent, FILL};
use super::{hex, Disagreement, Tally};
use crate::library::{self, FIELDS, SESSION};
use bench::inputs::{conversations, each_message, ways, Input};
use bench::plain::Session;

/// Random conversations; then, at the end of every way into every phase, each message alone.
pub fn compare(tally: &mut Tally) -> Result<(), Disagreement> {
    bad_calls()?;
    for conversation in conversations() {
        follow(&conversation, tally)?;
    }
    let messages = each_message();
    for way in ways() {
        let both = follow(&way, tally)?;
        for message in &messages {
            both.clone().offer(message, tally)?;
        }
    }
    Ok(())
}

/// Offers all of a list to a fresh session.
fn follow(offers: &[Input], tally: &mut Tally) -> Result<Both, Disagreement> {
    let mut both = Both::fresh()?;
    tally.sessions += 1;
    for input in offers {
        both.offer(input, tally)?;
    }
    Ok(both)
}

/// One session, as each of the two keeps it.
#[derive(Clone)]
struct Both {
    plain: Session,
    library: [u8; SESSION],
    /// The instructions accepted so far, for the report.
    accepted: Vec<u32>,
}

impl Both {
    fn fresh() -> Result<Self, Disagreement> {
        let mut library = [0xA5; SESSION];
        let answer = library::fresh(&mut library);
        let both = Self { plain: Session::FRESH, library, accepted: Vec::new() };
        let [plain, told] = both.where_it_stands();
        if answer != Ok(0) || plain != told {
            return Err(format!(
                "a fresh session: {answer:?} {library:?}, {told:?}, not {plain:?}"
            ));
        }
        Ok(both)
    }

    /// Whether it is closed and whose turn it is, as each of the two tells.
    fn where_it_stands(&self) -> [(bool, u8); 2] {
        let turn = self.plain.turn().map_or(0, |side| side as u8);
        let library = (library::closed(&self.library), library::turn(&self.library));
        [(self.plain.closed(), turn), library]
    }

    fn offer(&mut self, input: &Input, tally: &mut Tally) -> Result<(), Disagreement> {
        let (phase, before) = (self.plain, self.library);
        let plain = self.plain.step(input.side, &input.bytes);
        let mut lent: Lent = [FILL; FIELDS + 2];
        let library = library::step(&mut self.library, input.side as u8, &input.bytes, &mut lent);
        let mut expected: Lent = [FILL; FIELDS + 2];
        if let Ok(message) = &plain {
            expected[..FIELDS].copy_from_slice(&flat(&input.bytes, message));
        }
        let answer = plain.map(|message| message.count);
        let stands = self.where_it_stands();
        let kept = answer.is_ok() || self.library == before;
        if library != answer || lent != expected || stands[0] != stands[1] || !kept {
            return Err(format!(
                "offered by the {:?} in {phase:?}, after {:?}\n\
                 plain:   {answer:?} {expected:?} closed, turn {:?}\n\
                 library: {library:?} {lent:?} closed, turn {:?}, {before:?} became {:?}\n\
                 input: {}",
                input.side,
                self.accepted,
                stands[0],
                stands[1],
                self.library,
                hex(&input.bytes)
            ));
        }
        self.accepted.extend(plain.map(|message| message.instruction));
        tally.stepping.add(plain.map(|message| message.instruction));
        Ok(())
    }
}

/// Short records are 10, and nobody's turn; a side that is none is 8, and too few numbers for an
/// accepted message 10.
fn bad_calls() -> Result<(), Disagreement> {
    for room in 0..SESSION {
        let mut record = [0xA5; SESSION];
        let answer = library::fresh(&mut record[..room]);
        if answer != Err(10) || record != [0xA5; SESSION] {
            return Err(format!("a fresh session in {room} bytes: {answer:?} {record:?}"));
        }
        let turn = library::turn(&[0; SESSION][..room]);
        if turn != 0 {
            return Err(format!("the turn of {room} bytes: {turn}"));
        }
    }
    let start_up = [0, 0, 0, 110, 0, 0, 0, 0];
    let Both { library: fresh, .. } = Both::fresh()?;
    for (side, room, refusal) in [(0, FIELDS, 8), (3, 0, 8), (255, 12, 8), (1, 9, 10)] {
        let (mut record, mut lent) = (fresh, [FILL; 12]);
        let answer = library::step(&mut record, side, &start_up, &mut lent[..room]);
        if answer != Err(refusal) || lent != [FILL; 12] || record != fresh {
            return Err(format!(
                "a step of side {side} with {room} fields: expected Err({refusal}) and no change\n\
                 library: {answer:?} {lent:?}, {fresh:?} became {record:?}"
            ));
        }
    }
    Ok(())
}
