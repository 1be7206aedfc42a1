//! Each refusal by its number, and that nothing was changed then.

use keddorimp::basex::{
    read_response, read_string, write_request, End, Kind, Request, ResponseWriter,
};
use keddorimp::sedna::{
    read, write_empty, write_options, write_text, Assembly, Cut, Gathering, Instruction, Session,
    Side,
};
use keddorimp::Refusal;

/// A head of a message, and bytes behind it.
fn message(instruction: Instruction, length: u32, body: &[u8]) -> Vec<u8> {
    [&instruction.0.to_be_bytes()[..], &length.to_be_bytes(), body].concat()
}

/// The number with which a message of the client is refused.
fn refused(instruction: Instruction, length: u32, body: &[u8]) -> u8 {
    read(Side::Client, &message(instruction, length, body)).expect_err("accepted").number()
}

#[test]
fn numbers_and_meanings() {
    assert!(Refusal::ALL.iter().map(|refusal| refusal.number()).eq(1..=16));
    let listed = |&number: &u8| Refusal::numbered(number).is_some();
    assert!((0..=255).filter(listed).eq(1..=16));
    for &refusal in Refusal::ALL {
        assert_eq!(Refusal::numbered(refusal.number()), Some(refusal));
    }
    let error: &dyn core::error::Error = &Refusal::NoRoom;
    let words = "refused with 10: lent output shorter than the bytes to be put there";
    assert_eq!(error.to_string(), words);
}

#[test]
fn r1_more_bytes() {
    assert_eq!(refused(Instruction::EXECUTE, 7, &[0, 0, 0, 0, 0, 1]), 1);
    assert_eq!(read_string(b"no end", &mut [0; 9]), Err(Refusal::MoreBytes));
}

#[test]
fn r2_unknown() {
    assert_eq!(refused(Instruction(111), 0, &[]), 2);
    assert_eq!(write_empty(&mut [0; 8], Instruction(111)), Err(Refusal::UnknownInstruction));
    let answer = read_response(Kind(0xFF), &[0], &mut []).map(|(_, count)| count);
    assert_eq!(answer, Err(Refusal::UnknownInstruction));
}

#[test]
fn r3_other_side() {
    assert_eq!(refused(Instruction::CLOSE_OK, 0, &[]), 3);
}

#[test]
fn r4_body_too_long() {
    assert_eq!(refused(Instruction::BULK_LOAD_PORTION, 10_241, &[]), 4);
}

#[test]
fn r5_field_cut() {
    assert_eq!(refused(Instruction::BULK_LOAD_PORTION, 4, &[0, 0, 0, 0]), 5);
}

#[test]
fn r6_string_format() {
    assert_eq!(refused(Instruction::BULK_LOAD_PORTION, 1, &[1]), 6);
}

#[test]
fn r7_bytes_left_over() {
    assert_eq!(refused(Instruction::BULK_LOAD_PORTION, 6, &[0, 0, 0, 0, 0, 9]), 7);
}

#[test]
fn r8_value_not_allowed() {
    assert_eq!(refused(Instruction::EXECUTE, 1, &[2]), 8);
    let mut out = [0xA5; 64];
    let text = write_text(&mut out, Instruction::EXECUTE, b"").map(<[u8]>::len);
    let options = write_options(&mut out, Instruction::SET_OPTIONS, &[1, 2], &[1, 1], b"abc");
    assert_eq!((text, options.map(<[u8]>::len)), (Err(Refusal::ValueNotAllowed), text));
    let end = End { texts: [b"", b""], status: 2, error: b"" };
    let writer = ResponseWriter::new(Kind::QUERY, &mut out);
    assert_eq!(writer.end(&end), Err(Refusal::ValueNotAllowed));
    assert_eq!(out, [0xA5; 64]);
}

#[test]
fn r9_out_of_order() {
    let begin = message(Instruction::BEGIN, 0, &[]);
    let mut session = Session::new();
    assert_eq!(session.step(Side::Client, &begin), Err(Refusal::OutOfOrder));
    assert_eq!(session, Session::default());
    let joined = Assembly::new().join(&mut [], Side::Client, &begin);
    assert_eq!(joined, Err(Refusal::OutOfOrder));
}

/// What the server sends at the client's turn is refused as soon as it is offered, ErrorResponse
/// aside; and the turn is still the client's.
#[test]
fn r9_out_of_turn() {
    let start_up = message(Instruction::START_UP, 0, &[]);
    let asked = message(Instruction::SEND_SESSION_PARAMETERS, 0, &[]);
    let error = message(Instruction::ERROR_RESPONSE, 9, &[0; 9]);
    let mut session = Session::new();
    assert_eq!(session.step(Side::Server, &error), Err(Refusal::OutOfOrder));
    session.step(Side::Client, &start_up).unwrap();
    session.step(Side::Server, &asked).unwrap();
    assert_eq!(session.step(Side::Server, &asked), Err(Refusal::OutOfOrder));
    assert_eq!(session.turn(), Some(Side::Client));
    session.step(Side::Server, &error).unwrap();
    assert_eq!((session.turn(), session.closed()), (None, true));
}

/// A session of that version whose statement is answered by a file's name.
fn in_file(version: u8) -> Session {
    use Side::{Client, Server};
    let mut session = Session::new();
    let parameters = [&[version][..], &[0; 11]].concat();
    for (side, instruction, body) in [
        (Client, Instruction::START_UP, &[][..]),
        (Server, Instruction::SEND_SESSION_PARAMETERS, &[]),
        (Client, Instruction::SESSION_PARAMETERS, &parameters),
        (Server, Instruction::SEND_AUTH_PARAMETERS, &[]),
        (Client, Instruction::AUTHENTICATION_PARAMETERS, &[0; 5]),
        (Server, Instruction::AUTHENTICATION_OK, &[]),
        (Client, Instruction::BEGIN, &[]),
        (Server, Instruction::BEGIN_OK, &[]),
        (Client, Instruction::EXECUTE, &[0; 6]),
        (Server, Instruction::BULK_LOAD_FILE_NAME, &[0; 5]),
    ] {
        session.step(side, &message(instruction, body.len() as u32, body)).unwrap();
    }
    session
}

/// "BulkLoadError may stand after any number of portions instead of BulkLoadEnd", in the first file
/// and in a further one; behind it come BulkLoadFailed or ErrorResponse, and neither
/// BulkLoadSucceeded nor another file.
#[test]
fn r9_not_for_a_disk_error() {
    let portion = message(Instruction::BULK_LOAD_PORTION, 5, &[0; 5]);
    let lost = message(Instruction::BULK_LOAD_ERROR, 9, &[0; 9]);
    let succeeded = message(Instruction::BULK_LOAD_SUCCEEDED, 0, &[]);
    let another = message(Instruction::BULK_LOAD_FILE_NAME, 5, &[0; 5]);
    let end = message(Instruction::BULK_LOAD_END, 0, &[]);
    let commit = message(Instruction::COMMIT, 0, &[]);
    for (version, portions) in (1..=4).flat_map(|version| (0..=2).map(move |n| (version, n))) {
        let mut session = in_file(version);
        if version > 1 {
            session.step(Side::Client, &portion).unwrap();
            session.step(Side::Client, &end).unwrap();
            session.step(Side::Server, &another).unwrap();
        }
        for _ in 0..portions {
            session.step(Side::Client, &portion).unwrap();
        }
        session.step(Side::Client, &lost).unwrap();
        for stray in [&succeeded, &another] {
            assert_eq!(session.step(Side::Server, stray), Err(Refusal::OutOfOrder));
        }
        for answer in [Instruction::BULK_LOAD_FAILED, Instruction::ERROR_RESPONSE] {
            let mut session = session.clone();
            session.step(Side::Server, &message(answer, 9, &[0; 9])).unwrap();
            session.step(Side::Client, &commit).unwrap();
        }
    }
}

/// What comes ahead of its turn is judged as any message: half of one may become the ErrorResponse
/// that is taken, and what is malformed is refused by its own number.
#[test]
fn ahead_of_its_turn() {
    let error = message(Instruction::ERROR_RESPONSE, 9, &[0; 9]);
    let mut session = Session::new();
    session.step(Side::Client, &message(Instruction::START_UP, 0, &[])).unwrap();
    session.step(Side::Server, &message(Instruction::SEND_SESSION_PARAMETERS, 0, &[])).unwrap();
    for (bytes, number) in [
        (&error[..16], 1),
        (&message(Instruction(101), 0, &[]), 2),
        (&message(Instruction::START_UP, 0, &[]), 3),
        (&message(Instruction::ERROR_RESPONSE, 8, &[0; 8]), 5),
        (&message(Instruction::BEGIN_OK, 0, &[]), 9),
    ] {
        let refused = session.step(Side::Server, bytes).expect_err("accepted");
        assert_eq!((refused.number(), session.turn()), (number, Some(Side::Client)));
    }
    assert_eq!(session.step(Side::Server, &error).unwrap().1, 17);
}

#[test]
fn r10_no_room() {
    let mut out = [0xA5; 7];
    assert_eq!(write_empty(&mut out, Instruction::BEGIN), Err(Refusal::NoRoom));
    let request = Request::new(Kind::QUERY, [b"123456"]);
    assert_eq!(write_request(&mut out, &request), Err(Refusal::NoRoom));
    assert_eq!(read_string(b"12345678\0", &mut out), Err(Refusal::NoRoom));
    assert_eq!(out, [0xA5; 7]);
}

#[test]
fn r11_no_encoding() {
    let mut out = [0xA5; 20_000];
    let long = write_text(&mut out, Instruction::ITEM_PART, &[0; 10_236]);
    assert_eq!(long, Err(Refusal::NoEncoding));
    let command = Request::new(Kind::COMMAND, [b"\x1F"]);
    assert_eq!(write_request(&mut out, &command), Err(Refusal::NoEncoding));
    assert!(out.iter().all(|&byte| byte == 0xA5));
}

#[test]
fn r12_buffer_overrun() {
    let mut buffer = [0xA5; 1];
    let mut assembly = Assembly::new();
    assembly.open(Gathering::Statement);
    let part = message(Instruction::EXECUTE, 8, &[0, 0, 0, 0, 0, 2, b'1', b'2']);
    let joined = assembly.join(&mut buffer, Side::Client, &part);
    assert_eq!(joined, Err(Refusal::BufferOverrun));
    assert_eq!(buffer, [0xA5]);
}

/// Parts, ends and refusals, and whether a part was taken behind each.
#[test]
fn begun_and_ended() {
    let part = message(Instruction::ITEM_PART, 7, &[0, 0, 0, 0, 2, b'1', b'2']);
    let long = message(Instruction::ITEM_PART, 8, &[0, 0, 0, 0, 3, b'1', b'2', b'3']);
    let [item_end, result_end] =
        [Instruction::ITEM_END, Instruction::RESULT_END].map(|end| message(end, 0, &[]));
    let (mut assembly, mut buffer) = (Assembly::new(), [0; 2]);
    assert!(!assembly.begun());
    for (offers, ended) in [
        // An item that either of the two ends.
        (&[(&part, 0, true), (&item_end, 0, false), (&item_end, 9, false)][..], true),
        (&[(&part, 0, true), (&result_end, 0, false), (&result_end, 9, false)], true),
        // An end before any part takes nothing.
        (&[(&result_end, 9, false), (&item_end, 9, false), (&part, 0, true)], false),
        // A part without room, behind one that was taken and at first.
        (&[(&part, 0, true), (&part, 12, true), (&result_end, 12, true)], false),
        (&[(&long, 12, false), (&part, 12, false), (&result_end, 12, false)], false),
    ] {
        assembly.open(Gathering::Item);
        assert!(!assembly.begun());
        for &(bytes, number, begun) in offers {
            let joined = assembly.join(&mut buffer, Side::Server, bytes);
            assert_eq!(joined.map_or_else(Refusal::number, |_| 0), number);
            assert_eq!(assembly.begun(), begun);
        }
        assert_eq!(assembly == Assembly::new(), ended);
    }
}

/// A buffer that is lent shorter than what was gathered takes no part, not even an empty one, and
/// no end; and the gathering is spoilt.
#[test]
fn r12_a_shorter_buffer() {
    let part = message(Instruction::EXECUTE_LONG, 8, &[0, 0, 0, 0, 0, 2, b'1', b'2']);
    let empty = message(Instruction::EXECUTE_LONG, 6, &[0; 6]);
    let end = message(Instruction::LONG_QUERY_END, 0, &[]);
    for bytes in [&part, &empty, &end] {
        let mut buffer = [0xA5; 9];
        let mut assembly = Assembly::new();
        assembly.open(Gathering::Statement);
        assembly.join(&mut buffer, Side::Client, &part).unwrap();
        let mut short = [0xA5; 1];
        let refused = assembly.join(&mut short, Side::Client, bytes);
        assert_eq!(refused, Err(Refusal::BufferOverrun));
        assert_eq!(short, [0xA5]);
        let refused = assembly.join(&mut buffer, Side::Client, &end);
        assert_eq!(refused, Err(Refusal::BufferOverrun));
    }
}

#[test]
fn r13_bad_escape() {
    assert_eq!(read_string(b"a\xFFb\0", &mut [0; 9]), Err(Refusal::BadEscape));
}

#[test]
fn r14_no_such_part() {
    let cut = Cut::Statement { format: 0, text: b"1" };
    assert_eq!(cut.write_part(1, &mut []), Err(Refusal::NoSuchPart));
    assert_eq!(cut.write_part(usize::MAX, &mut []), Err(Refusal::NoSuchPart));
}

/// The 46 numbers that the plain implementation knows have a name, and no other has.
#[test]
fn instructions_have_names() {
    let named = (0..=1_000).filter(|&number| Instruction(number).name().is_some());
    assert!(named.eq(bench::inputs::MESSAGES.map(|(number, ..)| number)));
    assert_eq!(Instruction::LONG_QUERY_END.name(), Some("LongQueryEnd"));
}

#[test]
fn kinds_have_names() {
    let named = |byte: &u8| Kind(*byte).name().is_some();
    let known = |byte: &u8| bench::plain::basex::kind::strings(*byte).is_some();
    assert!((0x00..=0xFF).filter(named).eq((0x00..=0xFF).filter(known)));
    assert_eq!(Kind::PUT_BINARY.name(), Some("PUTBINARY"));
    assert!((0x20..=0xFE).all(|byte| Kind(byte).name() == Some("COMMAND")));
}

#[test]
fn what_is_shown() {
    assert_eq!(format!("{} {}", Kind::FULL, Kind(0xFF)), "FULL 0xFF");
    assert_eq!(format!("{} {}", Instruction::ITEM_END, Instruction(371)), "ItemEnd 371");
    assert_eq!(format!("{} {}", Side::Client, Side::Server), "client server");
    assert_eq!(format!("{:>10}", Gathering::Statement), " statement");
    assert_eq!(format!("{:6}|{:>6}|", Kind::FULL, Kind(0xFF)), "FULL  |  0xFF|");
    let refusal = format!("{:>33}|", Refusal::BytesLeftOver);
    assert_eq!(refusal, "  refused with 7: bytes left over|");
    assert_eq!(
        format!("{}, {}", Gathering::Item, Gathering::TypedItem),
        "item up to 3.0, item of 4.0"
    );
}
