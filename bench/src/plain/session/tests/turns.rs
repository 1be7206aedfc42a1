//! Whose turn it is, held against what may come next.

use super::*;
use std::collections::BTreeSet;
use Side::{Client, Server};

/// In each phase only the side that has the turn goes on, ErrorResponse aside, and it always can.
#[test]
fn only_the_side_that_has_the_turn_goes_on() {
    let query = [EXECUTE, QUERY_SUCCEEDED, DEBUG_INFO, ITEM_START, ITEM_PART, ITEM_END];
    let more = [GET_NEXT_ITEM, RESULT_END, GET_NEXT_ITEM, DEBUG_INFO, RESULT_END];
    let long = [EXECUTE_LONG, EXECUTE_LONG, LONG_QUERY_END, DEBUG_INFO, UPDATE_SUCCEEDED];
    let load = [EXECUTE, BULK_LOAD_FILE_NAME, BULK_LOAD_PORTION, BULK_LOAD_END];
    let failed = [EXECUTE, BULK_LOAD_FROM_STREAM, BULK_LOAD_PORTION, BULK_LOAD_ERROR, 450];
    let sides = [SHOW_TIME, LAST_QUERY_TIME, SET_OPTIONS, SET_OPTIONS_OK, RESET_OPTIONS];
    let mut phases = BTreeSet::new();
    for (from, list) in [
        (Session::FRESH, &[START_UP, 140, SESSION_PARAMETERS, 150, 130, AUTHENTICATION_OK][..]),
        (outside(4), &sides),
        (outside(4), &[BEGIN, BEGIN_OK, CLOSE, ROLLBACK_BEFORE_CLOSE]),
        (outside(4), &[CLOSE, CLOSE_OK]),
        (inside(4), &sides),
        (inside(4), &[&query[..], &more].concat()),
        (inside(4), &long),
        (inside(4), &load),
        (inside(4), &failed),
        (inside(4), &[COMMIT, COMMIT_OK]),
        (inside(4), &[ROLLBACK, ROLLBACK_FAILED]),
    ] {
        for n in 0..=list.len() {
            let session = after(from, &list[..n]);
            goes_on(session);
            phases.insert(session.phase());
        }
    }
    assert_eq!(phases.len(), Phase::Closed as usize + 1);
}

fn goes_on(session: Session) {
    let mut list = open(session);
    list.retain(|&instruction| instruction != ERROR_RESPONSE);
    assert_eq!(session.turn().is_none(), list.is_empty(), "{session:?}");
    for instruction in list {
        let (side, _) = entry(instruction).unwrap();
        assert_eq!(session.turn(), Some(side), "{session:?}: {instruction}");
    }
}

/// A turn may have more than one message.
#[test]
fn the_turn_stays_until_the_last_part() {
    let long = after(inside(1), &[EXECUTE_LONG]);
    assert_eq!(long.turn(), Some(Client));
    let item = after(inside(1), &[EXECUTE, QUERY_SUCCEEDED, ITEM_PART]);
    assert_eq!(item.turn(), Some(Server));
    assert_eq!(after(item, &[ITEM_END]).turn(), Some(Client));
}
