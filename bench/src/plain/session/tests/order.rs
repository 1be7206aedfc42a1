//! Which messages may come next, ErrorResponse (100) among them.

use super::*;

#[test]
fn start() {
    let mut list = vec![];
    let turns = [
        (&[START_UP][..], START_UP),
        (&[100, 140], SEND_SESSION_PARAMETERS),
        (&[100, 120], SESSION_PARAMETERS),
        (&[100, 150], SEND_AUTH_PARAMETERS),
        (&[100, 130], AUTHENTICATION_PARAMETERS),
        (&[100, 160, 170], AUTHENTICATION_OK),
    ];
    for (allowed, taken) in turns {
        assert_eq!(open(after(Session::FRESH, &list)), allowed);
        list.push(taken);
    }
    assert!(is_outside(after(Session::FRESH, &list)));
}

#[test]
fn outside_and_inside() {
    for version in 1..=4 {
        let options = if version >= 3 { &[530, 550][..] } else { &[] };
        let begin = [&[100, 210, 451, 500], options].concat();
        assert_eq!(open(outside(version)), begin);
        assert_eq!(open(after(outside(version), &[BEGIN])), [100, 230, 240]);
        let statements = [&[100, 220, 225, 300, 301, 451, 500], options].concat();
        assert_eq!(open(inside(version)), statements);
    }
}

#[test]
fn each_side_exchange_has_its_own_answer() {
    for place in [outside(3), inside(3)] {
        for (request, answer) in [(451, 452), (530, 540), (550, 560)] {
            assert_eq!(open(after(place, &[request])), [100, answer]);
            assert_eq!(after(place, &[request, answer]), place);
            assert_eq!(after(place, &[request, ERROR_RESPONSE]), place);
        }
    }
}

#[test]
fn ends_of_a_transaction() {
    let inside = inside(4);
    assert_eq!(open(after(inside, &[COMMIT])), [100, 250, 260]);
    assert_eq!(open(after(inside, &[ROLLBACK])), [100, 255, 265]);
    assert!(is_outside(after(inside, &[COMMIT, COMMIT_OK])));
    assert!(is_outside(after(inside, &[COMMIT, COMMIT_FAILED])));
    assert!(is_outside(after(inside, &[ROLLBACK, ROLLBACK_OK])));
    assert!(after(inside, &[ROLLBACK, ROLLBACK_FAILED]).closed());
    assert!(is_outside(after(outside(4), &[BEGIN, BEGIN_FAILED])));
}

#[test]
fn statement() {
    let long = after(inside(1), &[EXECUTE_LONG]);
    assert_eq!(open(long), [100, 301, 302]);
    assert_eq!(open(after(long, &[EXECUTE_LONG])), [100, 301, 302]);
    for text in [&[EXECUTE][..], &[EXECUTE_LONG, LONG_QUERY_END]] {
        let outcomes = [100, 320, 330, 340, 350, 430, 431];
        assert_eq!(open(after(inside(1), text)), outcomes);
        let outcomes = [100, 320, 325, 330, 340, 350, 430, 431];
        assert_eq!(open(after(inside(2), text)), outcomes);
        for answer in [QUERY_FAILED, UPDATE_SUCCEEDED, UPDATE_FAILED] {
            assert!(is_inside(after(after(inside(2), text), &[answer])));
        }
    }
}

#[test]
fn only_an_update_goes_on_from_debug_info() {
    for debug in [&[DEBUG_INFO][..], &[DEBUG_INFO, DEBUG_INFO]] {
        let updating = after(after(inside(2), &[EXECUTE]), debug);
        assert_eq!(open(updating), [100, 325, 340, 350]);
        assert!(is_inside(after(updating, &[UPDATE_SUCCEEDED])));
    }
}

#[test]
fn delivery() {
    for version in 1..=4 {
        let debug = if version >= 2 { &[DEBUG_INFO][..] } else { &[] };
        let due = after(after(inside(version), &[EXECUTE, QUERY_SUCCEEDED]), debug);
        let sorted = |list: &[u32]| {
            let mut all = [&[100], debug, list].concat();
            all.sort();
            all
        };
        assert_eq!(open(due), sorted(&[item(version), 375]));
        let in_item = after(due, &[item(version)]);
        assert_eq!(open(in_item), sorted(&[360, 370, 375]));
        assert_eq!(after(after(in_item, debug), &[ITEM_PART]), in_item);
        assert_eq!(after(in_item, &[ITEM_END]), item_over(version));
        assert_eq!(after(in_item, &[RESULT_END]), result_over(version));
        assert_eq!(after(item_over(version), &[GET_NEXT_ITEM]), due);
    }
}

#[test]
fn after_item_end_no_side_exchange() {
    for version in 1..=4 {
        assert_eq!(open(item_over(version)), [100, 220, 225, 300, 301, 310, 500]);
    }
}

#[test]
fn after_result_end() {
    let over = result_over(4);
    assert_eq!(open(over), [100, 220, 225, 300, 301, 310, 451, 500, 530, 550]);
    assert_eq!(open(result_over(2)), [100, 220, 225, 300, 301, 310, 451, 500]);
    let past = after(over, &[GET_NEXT_ITEM]);
    assert_eq!(open(past), [100, 325, 375]);
    assert_eq!(open(after(result_over(1), &[GET_NEXT_ITEM])), [100, 375]);
    assert_eq!(after(past, &[DEBUG_INFO]), past);
    assert_eq!(after(past, &[RESULT_END]), over);
    assert!(is_inside(after(over, &[SHOW_TIME, LAST_QUERY_TIME])));
}

#[test]
fn bulk_load() {
    for version in 1..=4 {
        for name in [BULK_LOAD_FILE_NAME, BULK_LOAD_FROM_STREAM] {
            let first = after(inside(version), &[EXECUTE, name]);
            for portions in 0..=2 {
                let in_file = after(first, &[BULK_LOAD_PORTION; 2][..portions]);
                assert_eq!(open(in_file), [100, 400, 410, 420]);
                let sent = after(in_file, &[BULK_LOAD_END]);
                let more = if version >= 2 { &[430][..] } else { &[] };
                assert_eq!(open(sent), [&[100], more, &[440, 450]].concat());
                assert!(more.is_empty() || after(sent, more) == first);
                let failed = after(in_file, &[BULK_LOAD_ERROR]);
                assert_eq!(open(failed), [100, 450]);
                for end in [after(sent, &[440]), after(sent, &[450]), after(failed, &[450])] {
                    assert!(is_inside(end));
                }
            }
        }
    }
}

#[test]
fn close() {
    assert_eq!(open(after(outside(4), &[CLOSE])), [100, 510]);
    for place in [inside(4), item_over(4), result_over(4)] {
        assert_eq!(open(after(place, &[CLOSE])), [100, 520]);
        assert!(after(place, &[CLOSE, ROLLBACK_BEFORE_CLOSE]).closed());
    }
}
