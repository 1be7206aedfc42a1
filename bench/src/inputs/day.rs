//! The session whose steps are timed: a query with many items, then a bulk load.

use super::{Input, Rng};
use crate::plain::instruction::*;
use crate::plain::{entry, BODY_MAX, HEAD};

const ITEMS: usize = 1_000;
/// What is loaded, cut into portions that fill their messages but for the last.
const LOAD: usize = 1 << 20;
const PORTION: usize = BODY_MAX - STRING;
/// Format byte and length of a string.
const STRING: usize = 5;

/// From StartUp to CloseOk, in version 4.0.
pub fn day() -> Vec<Input> {
    let mut day = Day { rng: Rng::new(8), messages: Vec::new() };
    day.start();
    day.transaction(Day::query);
    day.transaction(Day::bulk_load);
    day.empty(&[CLOSE, CLOSE_OK]);
    day.messages
}

/// The start of a session in version 4.0, and what may follow it any number of times: a
/// transaction with an update, committed.
pub fn endless() -> (Vec<Input>, Vec<Input>) {
    let mut day = Day { rng: Rng::new(9), messages: Vec::new() };
    day.start();
    let start = std::mem::take(&mut day.messages);
    day.transaction(|day| day.empty(&[UPDATE_SUCCEEDED]));
    (start, day.messages)
}

struct Day {
    rng: Rng,
    messages: Vec<Input>,
}

impl Day {
    fn start(&mut self) {
        self.empty(&[START_UP, SEND_SESSION_PARAMETERS]);
        self.put(SESSION_PARAMETERS, &[4, 0], &[8, 6]);
        self.empty(&[SEND_AUTH_PARAMETERS]);
        self.put(AUTHENTICATION_PARAMETERS, &[], &[16]);
        self.empty(&[AUTHENTICATION_OK]);
    }

    fn transaction(&mut self, statement: fn(&mut Self)) {
        self.empty(&[BEGIN, BEGIN_OK]);
        self.put(EXECUTE, &[0], &[80]);
        statement(self);
        self.empty(&[COMMIT, COMMIT_OK]);
    }

    /// Each item is asked for but the first, and the last ends the result.
    fn query(&mut self) {
        self.empty(&[QUERY_SUCCEEDED]);
        for left in (0..ITEMS).rev() {
            let (first, second) = (self.rng.between(40, 80), self.rng.between(150, 250));
            // An element of no type, without a URL.
            self.put(ITEM_START, &[2, 0, 0], &[first]);
            self.put(ITEM_PART, &[], &[second]);
            match left {
                0 => self.empty(&[RESULT_END]),
                _ => self.empty(&[ITEM_END, GET_NEXT_ITEM]),
            }
        }
    }

    fn bulk_load(&mut self) {
        self.put(BULK_LOAD_FILE_NAME, &[], &[24]);
        for _ in 0..LOAD / PORTION {
            self.put(BULK_LOAD_PORTION, &[], &[PORTION]);
        }
        self.put(BULK_LOAD_PORTION, &[], &[LOAD % PORTION]);
        self.empty(&[BULK_LOAD_END, BULK_LOAD_SUCCEEDED]);
    }

    fn empty(&mut self, instructions: &[u32]) {
        for &instruction in instructions {
            self.put(instruction, &[], &[]);
        }
    }

    /// A message whose body is these marks and random strings of these lengths.
    fn put(&mut self, instruction: u32, marks: &[u8], strings: &[usize]) {
        let (side, _) = entry(instruction).expect("a known instruction");
        let length = marks.len() + strings.iter().map(|n| STRING + n).sum::<usize>();
        let mut bytes = Vec::with_capacity(HEAD + length);
        bytes.extend(instruction.to_be_bytes());
        bytes.extend((length as u32).to_be_bytes());
        bytes.extend(marks);
        for &n in strings {
            bytes.push(0);
            bytes.extend((n as u32).to_be_bytes());
            self.rng.extend(&mut bytes, n);
        }
        self.messages.push(Input { side, bytes });
    }
}

#[cfg(test)]
mod tests {
    use super::*;
    use crate::plain::{Body, Session};

    #[test]
    fn a_whole_conversation_of_this_much() {
        let mut session = Session::FRESH;
        let (mut items, mut portions, mut loaded) = (0, 0, 0);
        let day = day();
        for input in &day {
            assert!(!session.closed());
            let message = session.step(input.side, &input.bytes).unwrap();
            assert_eq!(message.count, input.bytes.len());
            items += usize::from(message.instruction == ITEM_START);
            if let (BULK_LOAD_PORTION, Body::Text(portion)) = (message.instruction, message.body) {
                portions += 1;
                loaded += portion.len();
            }
        }
        assert!(session.closed());
        assert_eq!((items, portions, loaded), (ITEMS, 103, LOAD));
        assert_eq!(day.len(), 6 + 5 + (4 * ITEMS - 1) + 1 + 5 + 1 + 103 + 2 + 2);
    }
}
