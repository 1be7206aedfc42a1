//! The grammar of document 01, place by place, and what a step does to the record.

mod errors;
mod order;
mod record;
mod turns;

use super::*;
use crate::plain::instruction::*;
use crate::plain::{entry, Shape};

/// A message of this instruction with the shortest body, its version 4.0.
fn shortest(instruction: u32) -> (Side, Vec<u8>) {
    of_version(instruction, 4)
}

fn of_version(instruction: u32, version: u8) -> (Side, Vec<u8>) {
    const STRING: [u8; 5] = [0; 5];
    let (side, shape) = entry(instruction).unwrap();
    let body = match shape {
        Shape::Empty | Shape::Options => vec![],
        Shape::Session => [&[version, 0][..], &STRING, &STRING].concat(),
        Shape::Text => STRING.to_vec(),
        Shape::Statement => [&[0][..], &STRING].concat(),
        Shape::Coded => [&[0; 4][..], &STRING].concat(),
        Shape::Item => [&[1, 0, 0][..], &STRING].concat(),
    };
    let length = body.len() as u32;
    (side, [&instruction.to_be_bytes()[..], &length.to_be_bytes(), &body].concat())
}

/// A session that has accepted these one by one.
fn after(mut session: Session, list: &[u32]) -> Session {
    for &instruction in list {
        let (side, bytes) = shortest(instruction);
        let answer = session.step(side, &bytes).map(|message| message.count);
        assert_eq!(answer, Ok(bytes.len()), "{instruction} of {list:?}");
    }
    session
}

/// All instructions that a session accepts, in rising order.
fn open(session: Session) -> Vec<u32> {
    let known = (0..1000).filter(|&instruction| entry(instruction).is_some());
    known
        .filter(|&instruction| {
            let (side, bytes) = shortest(instruction);
            match session.clone().step(side, &bytes) {
                Ok(_) => true,
                Err(number) => {
                    assert_eq!(number, 9);
                    false
                }
            }
        })
        .collect()
}

/// Outside, in a version.
fn outside(version: u8) -> Session {
    let mut session = after(Session::FRESH, &[START_UP, SEND_SESSION_PARAMETERS]);
    let (side, bytes) = of_version(SESSION_PARAMETERS, version);
    session.step(side, &bytes).unwrap();
    let rest = [SEND_AUTH_PARAMETERS, AUTHENTICATION_PARAMETERS, AUTHENTICATION_OK];
    after(session, &rest)
}

fn inside(version: u8) -> Session {
    after(outside(version), &[BEGIN, BEGIN_OK])
}

/// Inside, after an item of one message and its end.
fn item_over(version: u8) -> Session {
    after(inside(version), &[EXECUTE, QUERY_SUCCEEDED, item(version), ITEM_END])
}

fn result_over(version: u8) -> Session {
    after(inside(version), &[EXECUTE, QUERY_SUCCEEDED, RESULT_END])
}

fn item(version: u8) -> u32 {
    if version == 4 {
        ITEM_START
    } else {
        ITEM_PART
    }
}

/// Whether a session goes on as a plain inside does.
fn is_inside(session: Session) -> bool {
    session == inside(session.version())
}

fn is_outside(session: Session) -> bool {
    session == outside(session.version())
}
