//! Document 01's worked examples, its numbers for cutting, and the slips that it has seen.

use bench::plain::basex::bytes as plain;
use keddorimp::basex::{read_response, read_string, write_string, Item, Kind};
use keddorimp::sedna::{
    read, write_statement, write_text, Assembly, Body, Cut, Gathering, Instruction, Joined,
    Message, Session, Side, MESSAGE_MAX,
};
use keddorimp::Refusal;

/// The bytes of a hex text with spaces.
fn hex(text: &str) -> Vec<u8> {
    let digits: Vec<_> = text.chars().filter_map(|c| c.to_digit(16)).collect();
    digits.chunks(2).map(|pair| (pair[0] * 16 + pair[1]) as u8).collect()
}

fn refused(side: Side, bytes: &str) -> u8 {
    read(side, &hex(bytes)).expect_err("accepted").number()
}

#[test]
fn heads() {
    use Side::{Client, Server};
    assert_eq!(refused(Client, ""), 1);
    assert_eq!(refused(Client, "0000006E 000000"), 1);
    let start_up = Message { instruction: Instruction::START_UP, body: Body::Empty };
    assert_eq!(read(Client, &hex("0000006E 00000000")), Ok((start_up, 8)));
    assert_eq!(refused(Server, "0000006E 00000000"), 3);
    assert_eq!(refused(Client, "0000006E 00000001 78"), 7);
    assert_eq!(refused(Client, "00000065 00000000"), 2);
    assert_eq!(refused(Server, "00000168 00002801"), 4);
    assert_eq!(refused(Server, "00000168 00002800"), 1);
}

#[test]
fn execute() {
    let bytes = hex("0000012C 00000007 00 00 00000001 31");
    let body = Body::Statement { format: 0, text: b"1" };
    let message = Message { instruction: Instruction::EXECUTE, body };
    assert_eq!(read(Side::Client, &bytes), Ok((message, 15)));
    assert_eq!(refused(Side::Client, "0000012C 00000007 02 00 00000001 31"), 8);
    assert_eq!(refused(Side::Client, "0000012C 00000007 00 01 00000001 31"), 6);
    assert_eq!(refused(Side::Client, "0000012C 00000007 00 00 00000002 31"), 5);
}

#[test]
fn basex_strings() {
    let mut out = [0; 6];
    assert_eq!(write_string(&mut out, &hex("61 00 FF")).unwrap(), hex("61 FF 00 FF FF 00"));
    assert_eq!(read_string(&hex("FF 41 00"), &mut out), Err(Refusal::BadEscape));
    assert_eq!(read_string(&hex("FF"), &mut out), Err(Refusal::MoreBytes));
    // The other side of the comparison has to get them right too.
    assert_eq!(plain::write_string(&mut out, 0, &hex("61 00 FF")), Ok(6));
    assert_eq!(out[..], hex("61 FF 00 FF FF 00"));
    assert_eq!(plain::decode(&hex("FF 41 00"), 0, &mut out, 0), Err(13));
    assert_eq!(plain::decode(&hex("FF"), 0, &mut out, 0), Err(1));
}

/// The two payloads of the transcript: `1 C 110 0`, `2 S 100 0`, `closed`.
#[test]
fn transcript() {
    let mut session = Session::new();
    let error = hex("00000064 0000000A 00000001 00 00000001 78");
    assert_eq!(session.step(Side::Client, &hex("0000006E 00000000")).unwrap().1, 8);
    assert!(!session.closed());
    let (message, count) = session.step(Side::Server, &error).unwrap();
    assert_eq!((message.instruction, count), (Instruction::ERROR_RESPONSE, 18));
    assert_eq!(message.body, Body::Coded { code: 1, text: b"x" });
    assert!(session.closed());
}

/// How long the messages of a cut are; behind them there is none.
fn lengths(cut: Cut) -> Vec<usize> {
    let mut out = [0; MESSAGE_MAX];
    let parts = cut.parts().unwrap();
    assert_eq!(cut.write_part(parts, &mut out), Err(Refusal::NoSuchPart));
    (0..parts).map(|k| cut.write_part(k, &mut out).unwrap().len()).collect()
}

#[test]
fn cutting() {
    let text = [b'x'; 20_471];
    let statement = |n| lengths(Cut::Statement { format: 1, text: &text[..n] });
    assert_eq!(statement(10_234), [10_248]);
    assert_eq!(statement(10_235), [10_248, 15, 8]);
    assert_eq!(statement(20_468), [10_248, 10_248, 8]);
    let item = |n| lengths(Cut::Item { text: &text[..n] });
    assert_eq!(item(0), [13]);
    assert_eq!(item(10_235), [10_248]);
    assert_eq!(item(20_471), [10_248, 10_248, 14]);
    let typed = |n, url| Cut::TypedItem { class: 1, kind: 0, url, text: &text[..n] };
    assert_eq!(lengths(typed(10_232, None)), [10_248]);
    assert_eq!(lengths(typed(10_233, None)), [10_248, 14]);
    assert_eq!(lengths(typed(10_227, Some(b""))), [10_248]);
    assert_eq!(lengths(typed(1, Some(&text[..10_227]))), [10_248, 14]);
    assert_eq!(typed(1, Some(&text[..10_228])).parts(), Err(Refusal::NoEncoding));
}

/// "Taking 10,240 bytes of text into Execute: the body then has 10,246."
#[test]
fn too_much_text_for_execute() {
    let (mut out, text) = ([0; 11_000], [b' '; 10_240]);
    let mut write = |n| {
        let written = write_statement(&mut out, Instruction::EXECUTE, 0, &text[..n]);
        written.map(<[u8]>::len)
    };
    assert_eq!(write(10_234), Ok(10_248));
    assert_eq!(write(10_235), Err(Refusal::NoEncoding));
    assert_eq!(write(10_240), Err(Refusal::NoEncoding));
}

/// "After a part that found no room, storing a later, shorter one."
#[test]
fn a_shorter_part_after_one_without_room() {
    let (mut long, mut short, mut buffer) = ([0; 32], [0; 32], [0; 4]);
    let long = write_text(&mut long, Instruction::ITEM_PART, b"12345").unwrap();
    let short = write_text(&mut short, Instruction::ITEM_PART, b"1").unwrap();
    let end = hex("00000172 00000000");
    let mut assembly = Assembly::new();
    assembly.open(Gathering::Item);
    assert_eq!(assembly.join(&mut buffer, Side::Server, short), Ok((Joined::Part, 14)));
    for bytes in [long, short, &end] {
        let refused = assembly.join(&mut buffer, Side::Server, bytes);
        assert_eq!(refused, Err(Refusal::BufferOverrun));
    }
    assert_eq!(buffer, *b"1\0\0\0");
    // A new opening drops it.
    assembly.open(Gathering::Item);
    assert_eq!(assembly.join(&mut buffer, Side::Server, short), Ok((Joined::Part, 14)));
    let (joined, _) = assembly.join(&mut buffer, Side::Server, &end).unwrap();
    assert_eq!(joined, Joined::Item { text: b"1" });
}

/// "Taking QuerySucceeded after a DebugInfo that followed Execute: only an update goes on from
/// there."
#[test]
fn query_succeeded_after_debug_info() {
    use Side::{Client, Server};
    let mut session = Session::new();
    for (side, bytes) in [
        (Client, "0000006E 00000000"),
        (Server, "0000008C 00000000"),
        (Client, "00000078 0000000C 0200 00 00000000 00 00000000"),
        (Server, "00000096 00000000"),
        (Client, "00000082 00000005 00 00000000"),
        (Server, "000000A0 00000000"),
        (Client, "000000D2 00000000"),
        (Server, "000000E6 00000000"),
        (Client, "0000012C 00000007 00 00 00000001 31"),
        (Server, "00000145 00000009 00000000 00 00000000"),
    ] {
        session.step(side, &hex(bytes)).unwrap();
    }
    let update = hex("00000154 00000000");
    assert_eq!(session.step(Server, &hex("00000140 00000000")), Err(Refusal::OutOfOrder));
    assert_eq!(
        session.step(Server, &update).unwrap().0.instruction.name(),
        Some("UpdateSucceeded")
    );
}

/// "an integer's id is 52 decimal, not 52 hex": 52 hex is 82, which has a URI in FULL.
#[test]
fn the_id_of_an_integer() {
    let mut out = [0; 8];
    let bytes = hex("34 31 00 52 75 00 6E 00 00 00");
    let (response, count) = read_response(Kind::FULL, &bytes, &mut out).unwrap();
    let items: Vec<_> = response.items.clone().collect();
    let integer = Item { id: 52, uri: None, text: b"1" };
    assert_eq!(items, [integer, Item { id: 82, uri: Some(b"u"), text: b"n" }]);
    assert_eq!((response.failure(), count), (None, 10));
}
