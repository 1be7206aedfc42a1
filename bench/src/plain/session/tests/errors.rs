//! ErrorResponse: what it ends depends on whose turn it is.

use super::*;

fn with_error(session: Session) -> Session {
    after(session, &[ERROR_RESPONSE])
}

#[test]
fn start() {
    assert!(!open(Session::FRESH).contains(&ERROR_RESPONSE));
    let list = [START_UP, 140, SESSION_PARAMETERS, 150, 130];
    for n in 1..=list.len() {
        assert!(with_error(after(Session::FRESH, &list[..n])).closed());
    }
}

#[test]
fn the_clients_turn_ends_the_conversation() {
    let due = [EXECUTE, BULK_LOAD_FILE_NAME];
    for session in [
        outside(4),
        inside(4),
        item_over(4),
        result_over(4),
        after(inside(4), &[EXECUTE_LONG]),
        after(inside(4), &due),
        after(after(inside(4), &due), &[BULK_LOAD_PORTION]),
        after(inside(4), &[EXECUTE, ERROR_RESPONSE]),
    ] {
        assert!(with_error(session).closed());
    }
}

#[test]
fn the_servers_turn_ends_the_exchange() {
    for list in [
        &[EXECUTE][..],
        &[EXECUTE_LONG, LONG_QUERY_END],
        &[EXECUTE, DEBUG_INFO],
        &[EXECUTE, QUERY_SUCCEEDED],
        &[EXECUTE, QUERY_SUCCEEDED, ITEM_START],
        &[EXECUTE, BULK_LOAD_FROM_STREAM, BULK_LOAD_END],
        &[EXECUTE, BULK_LOAD_FROM_STREAM, BULK_LOAD_ERROR],
        &[COMMIT],
        &[ROLLBACK],
        &[SHOW_TIME],
    ] {
        assert!(is_inside(with_error(after(inside(4), list))), "{list:?}");
    }
    assert!(is_outside(with_error(after(outside(4), &[BEGIN]))));
    assert!(is_outside(with_error(after(outside(4), &[SET_OPTIONS]))));
}

#[test]
fn a_result_is_gone_with_it() {
    for over in [item_over(4), result_over(4)] {
        for request in [GET_NEXT_ITEM, EXECUTE, COMMIT, ROLLBACK] {
            assert!(is_inside(with_error(after(over, &[request]))));
        }
    }
}

#[test]
fn close() {
    for place in [outside(4), inside(4), item_over(4)] {
        assert!(with_error(after(place, &[CLOSE])).closed());
    }
}
