//! What is handed out: how long it lives, and what a URI or a URL that is none means.

use keddorimp::basex::{
    read_item, read_response, End, Item, Items, Kind, Request, Response, ResponseWriter,
};
use keddorimp::sedna::{
    read, write_empty, write_item, Assembly, Body, Cut, Gathering, Instruction, Joined, Message,
    Session, Settings, Side, MESSAGE_MAX,
};
use keddorimp::Refusal;

const END: End = End { texts: [b"", b""], status: 0, error: b"" };

/// What is whole is a part of the buffer, and not of the assembly.
#[test]
fn a_text_outlives_its_assembly() {
    fn join<'b>(cut: &Cut, buffer: &'b mut [u8]) -> Joined<'b> {
        let mut out = [0; MESSAGE_MAX];
        let mut assembly = Assembly::new();
        assembly.open(Gathering::TypedItem);
        for k in 0..cut.parts().unwrap() {
            let part = cut.write_part(k, &mut out).unwrap();
            let joined = assembly.join(buffer, Side::Server, part);
            assert_eq!(joined, Ok((Joined::Part, part.len())));
        }
        let end = write_empty(&mut out, Instruction::ITEM_END).unwrap();
        assembly.join(buffer, Side::Server, end).unwrap().0
    }
    let (text, mut buffer) = ([b'x'; 15_000], [0; 20_000]);
    let cut = Cut::TypedItem { class: 2, kind: 61, url: Some(b"u"), text: &text };
    let joined = join(&cut, &mut buffer);
    assert_eq!(joined, Joined::TypedItem { class: 2, kind: 61, text: &text });
}

/// The end takes the writer, and what it hands out is a part of the output.
#[test]
fn a_response_outlives_its_writer() {
    fn respond(out: &mut [u8]) -> Result<&[u8], Refusal> {
        let mut writer = ResponseWriter::new(Kind::RESULTS, out);
        writer.item(&Item { id: 52, uri: None, text: b"1" })?;
        writer.end(&END)
    }
    assert_eq!(respond(&mut [0; 9]), Ok(&b"\x341\0\0\0"[..]));
    assert_eq!(respond(&mut [0; 4]), Err(Refusal::NoRoom));
}

/// Texts and items stand in the output: the bytes that they were read from may be gone.
#[test]
fn texts_outlive_the_bytes() {
    fn responses<'o>(received: &[&str], out: &'o mut [u8]) -> (Vec<Item<'o>>, Option<&'o [u8]>) {
        let bytes = received.concat().into_bytes();
        let (response, _) = read_response(Kind::RESULTS, &bytes, out).unwrap();
        (response.items.clone().collect(), response.failure())
    }
    let mut out = [0; 9];
    let (items, failure) = responses(&["\u{34}1\0", "\u{34}2\0", "\0\u{1}E\0"], &mut out);
    assert_eq!(items, [b"1", b"2"].map(|text| Item { id: 52, uri: None, text }));
    assert_eq!(failure, Some(&b"E"[..]));
}

/// A response with one item, written and read again.
fn again(kind: Kind, item: Item) -> Result<(), Refusal> {
    let (mut out, mut texts) = ([0xA5; 16], [0; 16]);
    let mut writer = ResponseWriter::new(kind, &mut out);
    writer.item(&item)?;
    let written = writer.end(&END)?;
    let (response, count) = read_response(kind, written, &mut texts)?;
    assert!(response.items.eq([item]), "{kind}: {item:?}");
    assert_eq!(count, written.len());
    Ok(())
}

/// None is no URI and `Some(b"")` is an empty one, and nothing is written as something else.
#[test]
fn a_uri_that_is_none_or_empty() {
    for kind in [Kind::RESULTS, Kind::FULL] {
        for id in (7..=15).chain(32..=83) {
            let has = kind == Kind::FULL && [12, 14, 82].contains(&id);
            for uri in [None, Some(&b""[..]), Some(b"u")] {
                let right =
                    if uri.is_some() == has { Ok(()) } else { Err(Refusal::ValueNotAllowed) };
                assert_eq!(again(kind, Item { id, uri, text: b"t" }), right, "{kind} {id} {uri:?}");
            }
        }
    }
}

/// 2 for a kind that is none goes ahead of 8, and 10 for too little room comes last; a refused item
/// leaves no trace.
#[test]
fn the_order_of_refusals_for_an_item() {
    use Refusal::{NoRoom, UnknownInstruction, ValueNotAllowed};
    for (kind, id, uri, refusal) in [
        (Kind(0xFF), 52, Some(&b""[..]), UnknownInstruction),
        (Kind(0xFF), 12, None, UnknownInstruction),
        (Kind::QUERY, 12, None, ValueNotAllowed),
        (Kind::FULL, 12, None, ValueNotAllowed),
        (Kind::FULL, 52, Some(b""), ValueNotAllowed),
        (Kind::FULL, 16, None, ValueNotAllowed),
        (Kind::FULL, 52, None, NoRoom),
        (Kind::FULL, 12, Some(b""), NoRoom),
    ] {
        let mut out = [0xA5];
        let mut writer = ResponseWriter::new(kind, &mut out);
        let refused = writer.item(&Item { id, uri, text: b"" });
        assert_eq!(refused, Err(refusal), "{kind} {id} {uri:?}");
        assert_eq!(out, [0xA5]);
    }
}

/// 1 for no byte, 2, 8 for a response without items, the fields one after another, and 10 last; a
/// refused call has stored nothing, not even a URI that fits alone.
#[test]
fn the_order_of_refusals_for_reading_an_item() {
    use Refusal::{BadEscape, MoreBytes, NoRoom, UnknownInstruction, ValueNotAllowed};
    for (kind, bytes, refusal) in [
        (Kind(0xFF), &b""[..], MoreBytes),
        (Kind(0xFF), b"\x10", UnknownInstruction),
        (Kind::QUERY, b"\x0C", ValueNotAllowed),
        (Kind::FULL, b"\x10\xFFt", ValueNotAllowed),
        (Kind::FULL, b"\x0Cu", MoreBytes),
        (Kind::FULL, b"\x0Cu\xFFu", BadEscape),
        (Kind::FULL, b"\x0Curi\0\xFFt", BadEscape),
        (Kind::FULL, b"\x0Curi\0text", MoreBytes),
        (Kind::FULL, b"\x0Curi\0text\0", NoRoom),
        (Kind::FULL, b"\x0Clong uri\0\0", NoRoom),
        (Kind::RESULTS, b"\x0Clong text\0", NoRoom),
    ] {
        let mut out = [0xA5; 6];
        assert_eq!(read_item(kind, bytes, &mut out), Err(refusal), "{kind} {bytes:?}");
        assert_eq!(out, [0xA5; 6], "{kind} {bytes:?}");
    }
}

/// With just enough room for both; and the 00 behind the last item takes none.
#[test]
fn an_item_and_the_end_of_the_items() {
    let (bytes, mut out) = (b"\x0Curi\0t\xFF\0xt\0 and more", [0; 7]);
    let item = Item { id: 12, uri: Some(b"uri"), text: b"t\0xt" };
    assert_eq!(read_item(Kind::FULL, bytes, &mut out), Ok(Some((item, 11))));
    assert_eq!(read_item(Kind::FULL, b"\x0C\0\0", &mut []).unwrap().unwrap().0.uri, Some(&b""[..]));
    assert_eq!(read_item(Kind::RESULTS, b"\x0C\0\0", &mut []).unwrap().unwrap().0.uri, None);
    assert_eq!(read_item(Kind::FULL, b"\0", &mut []), Ok(None));
}

/// In ItemStart None is the flag 0, and `Some(b"")` the flag 1 with an empty URL.
#[test]
fn a_url_that_is_none_or_empty() {
    let mut out = [0; 64];
    for url in [None, Some(&b""[..]), Some(b"u")] {
        let body = Body::Item { class: 2, kind: 61, url, part: b"text" };
        let start = write_item(&mut out, Instruction::ITEM_START, 2, 61, url, b"text").unwrap();
        assert_eq!(start[10], u8::from(url.is_some()));
        assert_eq!(read(Side::Server, start).unwrap().0.body, body);
        let cut = Cut::TypedItem { class: 2, kind: 61, url, text: b"text" };
        let start = cut.write_part(0, &mut out).unwrap();
        assert_eq!(read(Side::Server, start).unwrap().0.body, body);
    }
}

#[test]
fn all_can_be_handed_to_another_thread() {
    fn free<T: Send + Sync>() {}
    free::<(Session, Assembly, Message, Joined, Cut, Settings)>();
    free::<(Request, Response, Items, ResponseWriter, Refusal)>();
}
