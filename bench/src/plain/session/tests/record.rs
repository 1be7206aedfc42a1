//! What a step answers, and that a refused one changes nothing.

use super::*;

#[test]
fn refusals_ahead_of_9() {
    let mut session = Session::FRESH;
    let mut refused = |side, bytes: &[u8]| {
        let number = session.step(side, bytes).expect_err("accepted");
        assert_eq!(session, Session::FRESH);
        number
    };
    assert_eq!(refused(Side::Client, &[0; 7]), 1);
    assert_eq!(refused(Side::Client, &[0, 0, 0, 101, 0, 0, 0, 0]), 2);
    assert_eq!(refused(Side::Client, &shortest(ITEM_END).1), 3);
    assert_eq!(refused(Side::Server, &[0, 0, 1, 0x68, 0, 0, 0x28, 1]), 4);
    assert_eq!(refused(Side::Server, &[0, 0, 0, 100, 0, 0, 0, 1, 0]), 5);
    assert_eq!(refused(Side::Server, &[0, 0, 1, 0x68, 0, 0, 0, 1, 1]), 6);
    assert_eq!(refused(Side::Client, &[0, 0, 0, 210, 0, 0, 0, 1, 1]), 7);
    assert_eq!(refused(Side::Client, &[0, 0, 1, 44, 0, 0, 0, 1, 2]), 8);
    assert_eq!(refused(Side::Client, &shortest(BEGIN).1), 9);
}

#[test]
fn the_front_message_is_judged_alone() {
    let mut session = Session::FRESH;
    let (side, mut bytes) = shortest(START_UP);
    bytes.extend([0xFF; 9]);
    let message = Message { instruction: START_UP, body: Body::Empty, count: 8 };
    assert_eq!(session.step(side, &bytes), Ok(message));
    assert_eq!(session.phase(), Phase::StartUpSent);
}

#[test]
fn the_version_is_that_of_the_session_parameters() {
    for version in 1..=4 {
        assert_eq!(outside(version).version(), version);
        let mut inside = inside(version);
        let (side, bytes) = of_version(SESSION_PARAMETERS, 5 - version);
        assert_eq!(inside.step(side, &bytes), Err(9));
        assert_eq!(inside.version(), version);
    }
}

#[test]
fn later_formats_of_a_long_text_are_only_judged() {
    let mut session = after(inside(4), &[EXECUTE_LONG]);
    let (side, mut bytes) = shortest(EXECUTE_LONG);
    bytes[8] = 1;
    assert!(session.step(side, &bytes).is_ok());
    bytes[8] = 2;
    assert_eq!(session.step(side, &bytes), Err(8));
    assert_eq!(open(session), [100, 301, 302]);
}

#[test]
fn the_shortest_conversation_and_what_follows_it() {
    assert!(!Session::FRESH.closed());
    let ended = after(Session::FRESH, &[START_UP, ERROR_RESPONSE]);
    assert!(ended.closed());
    assert_eq!(open(ended), []);
    let mut session = ended;
    assert_eq!(session.step(Side::Client, &[0; 3]), Err(1));
    assert_eq!(session.step(Side::Server, &shortest(START_UP).1), Err(3));
    assert_eq!(session, ended);
}
