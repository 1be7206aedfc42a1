//! BaseX responses, read knowing the request from sound and damaged bytes, and written item by
//! item.

use crate::encoded;
use crate::lent::{fill, hex, holds};
use crate::rng::Rng;
use crate::tally::Tally;
use crate::texts::{damage, kind, put_behind, room, text, words};
use bench::plain::basex::{self as plain, kind::Form};
use keddorimp::basex::{read_response, End, Item, Kind, Response, ResponseWriter};
use keddorimp::Refusal;

const READ: usize = 200_000;
const WRITTEN: usize = 60_000;

pub fn read() -> Tally {
    let mut rng = Rng::new(4);
    let mut tally = Tally::new("BaseX responses read");
    let mut out = Vec::new();
    for k in 0..READ {
        let mut asked = kind(&mut rng);
        let mut bytes = sound(&mut rng, asked);
        put_behind(&mut rng, &mut bytes);
        if k % 2 == 1 {
            damage(&mut rng, &mut bytes);
        }
        if rng.one_in(10) {
            asked = kind(&mut rng);
        }
        tally.count(&compare(&mut rng, asked, &bytes, &mut out));
    }
    sweep(&mut rng, &mut tally, &mut out);
    tally.complete(&[1, 2, 8, 10, 13])
}

/// Everything short for a request of each shape; and for every first byte, every byte where an id
/// or a status may stand.
fn sweep(rng: &mut Rng, tally: &mut Tally, out: &mut Vec<u8>) {
    for kind in [0x00, 0x01, 0x04, 0x08, 0x1F, 0x20] {
        for bytes in words(&[0x00, 0x01, 0x02, 0x0C, 0x61, 0xFF], 5) {
            tally.count(&compare(rng, kind, &bytes, out));
        }
    }
    for kind in 0x00..=0xFF {
        for byte in 0x00..=0xFF {
            for bytes in [[byte, 0, 0, 0, 0], [0, byte, 0, 0, byte], [0, 0, byte, 0x61, 0]] {
                tally.count(&compare(rng, kind, &bytes, out));
            }
        }
    }
}

/// A response to a request of the kind.
pub fn sound(rng: &mut Rng, kind: u8) -> Vec<u8> {
    let call = Call::sound(rng, kind);
    call.bytes(kind).concat()
}

fn compare(rng: &mut Rng, kind: u8, bytes: &[u8], out: &mut Vec<u8>) -> Result<usize, u8> {
    let stored = |plain: &plain::Response| {
        plain.texts.concat().len() + plain.listed.len() + plain.error.len()
    };
    // No text is longer than its string.
    let mut expected = vec![0; bytes.len()];
    let whole = plain::read_response(kind, bytes, &mut expected);
    let room = room(rng, whole.as_ref().map_or(0, stored));
    fill(&mut expected, room);
    let plain = plain::read_response(kind, bytes, &mut expected[..room]);
    fill(out, room);
    let ours = read_response(Kind(kind), bytes, &mut out[..room]).map_err(Refusal::number);
    let alike = match (&ours, &plain) {
        (Ok((response, read)), Ok(plain)) => {
            *read == plain.read && same(kind, bytes, response, plain)
        }
        (Err(ours), Err(plain)) => ours == plain,
        _ => false,
    };
    assert!(alike, "to {kind:02X} into {room}: {ours:?}, plain {plain:?}\n{}", hex(bytes));
    let (answer, stored) = (plain.map(|plain| plain.read), plain.as_ref().map_or(0, stored));
    assert!(holds(out, &expected[..stored]), "to {kind:02X} into {room}: {}", hex(bytes));
    answer
}

/// Texts, items, status and error, and where the error is.
fn same(kind: u8, bytes: &[u8], response: &Response, plain: &plain::Response) -> bool {
    let End { texts, status, error } = response.end;
    let form = Form::of(kind).expect("a kind whose response was read");
    let items = items(kind, bytes, plain.listed);
    // "with status 01 the last string is the error", and the others have one behind it.
    let failure = match form.has_error(1) {
        true => error,
        false => texts[form.texts() - 1],
    };
    let place = |text: &[u8]| text.as_ptr_range();
    response.kind == Kind(kind)
        && texts == plain.texts
        && (response.items.len(), items.len()) == (plain.items, plain.items)
        && response.items.clone().eq(items)
        && (status, error) == (plain.status, plain.error)
        && response.failure().map(place) == (status == 1).then(|| place(failure))
}

/// The items of a response, none where it has no items; their texts taken from the listed ones.
fn items<'o>(kind: u8, bytes: &[u8], mut listed: &'o [u8]) -> Vec<Item<'o>> {
    let (mut items, mut at) = (vec![], 0);
    while let Ok(Some(item)) = plain::item(kind, bytes, at) {
        let (uri, rest) = listed.split_at(item.uri.unwrap_or(0));
        let (text, rest) = rest.split_at(item.text);
        items.push(Item { id: item.id, uri: item.uri.map(|_| uri), text });
        (listed, at) = (rest, item.next);
    }
    items
}

pub fn write() -> Tally {
    let mut rng = Rng::new(5);
    let mut tally = Tally::new("BaseX responses written");
    let (mut ours, mut plain) = (Vec::new(), Vec::new());
    for _ in 0..WRITTEN {
        let kind = kind(&mut rng);
        let mut call = Call::sound(&mut rng, kind);
        if rng.one_in(3) {
            call.spoil(&mut rng);
        }
        let exact = call.bytes(kind).concat().len();
        let room = room(&mut rng, exact);
        fill(&mut ours, room);
        fill(&mut plain, room);
        // After a refusal either the output is compared, or the writing goes on.
        let halt = rng.one_in(2);
        call.write(kind, halt, &mut ours[..room], &mut plain[..room], &mut tally);
        assert_eq!(ours, plain, "to {kind:02X}: {call:?}");
    }
    write_sweep(&mut tally);
    tally.complete(&[2, 8, 10])
}

/// For every first byte, every byte as the id of an item, with a URI, an empty one and none, and as
/// the status.
fn write_sweep(tally: &mut Tally) {
    for (kind, byte) in (0x00..=0xFF).flat_map(|kind| (0x00..=0xFF).map(move |byte| (kind, byte))) {
        let uris = [None, Some(vec![]), Some(b"u".to_vec())];
        let items = uris.map(|uri| (byte, uri, b"t".to_vec())).to_vec();
        let call = Call { items, texts: Default::default(), status: byte, error: vec![] };
        let (mut ours, mut plain) = ([0xA5; 24], [0xA5; 24]);
        call.write(kind, false, &mut ours, &mut plain, tally);
        assert_eq!(ours, plain, "to {kind:02X}: {call:?}");
    }
}

/// Id, URI and text.
type Given = (u8, Option<Vec<u8>>, Vec<u8>);

/// What is to be written.
#[derive(Debug)]
struct Call {
    items: Vec<Given>,
    texts: [Vec<u8>; 2],
    status: u8,
    error: Vec<u8>,
}

impl Call {
    /// A response to a request of the kind, as it is published; the end of one for an unknown kind.
    fn sound(rng: &mut Rng, kind: u8) -> Self {
        let form = Form::of(kind).unwrap_or(Form::Query);
        let status = rng.pick(&[0, 0, 1]);
        let items = match form {
            Form::Items { full } => {
                (0..rng.pick(&[0, 1, 2, 3, 9])).map(|_| item(rng, full)).collect()
            }
            _ => Vec::new(),
        };
        let texts = [0, 1].map(|k| if k < form.texts() { text(rng) } else { vec![] });
        let error = if form.has_error(status) { text(rng) } else { vec![] };
        Self { items, texts, status, error }
    }

    /// A value that is not allowed, though not every draw is one.
    fn spoil(&mut self, rng: &mut Rng) {
        let (place, any) = (rng.below(2), rng.byte());
        match rng.below(5) {
            0 => self.status = rng.pick(&[0, 1, 2, 0xFF, any]),
            1 => self.error = text(rng),
            2 => self.texts[place] = text(rng),
            3 => self.items.push((rng.pick(&[7, 12, 82]), Some(text(rng)), text(rng))),
            _ => {
                let id = rng.pick(&[0, 6, 7, 12, 15, 16, 31, 32, 82, 83, 84, 0xFF, any]);
                self.items.push((id, None, text(rng)));
            }
        }
    }

    /// What each call writes; nothing where it is refused.
    fn bytes(&self, kind: u8) -> Vec<Vec<u8>> {
        let item = |(id, uri, text): &Given| encoded::item(kind, *id, uri.as_deref(), text);
        let items = self.items.iter().map(item);
        let texts = self.texts.each_ref().map(Vec::as_slice);
        let end = encoded::end(kind, texts, self.status, &self.error);
        items.chain([end]).map(Result::unwrap_or_default).collect()
    }

    fn write(&self, kind: u8, halt: bool, ours: &mut [u8], plain: &mut [u8], tally: &mut Tally) {
        let mut writer = ResponseWriter::new(Kind(kind), ours);
        let mut at = 0;
        for (id, uri, text) in &self.items {
            let uri = uri.as_deref();
            let expected = encoded::write_item(plain, at, kind, *id, uri, text);
            let answer = writer.item(&Item { id: *id, uri, text }).map_err(Refusal::number);
            assert_eq!(answer.map(<[u8]>::len), expected, "to {kind:02X}: {self:?}");
            tally.count(&expected);
            at += expected.unwrap_or(0);
            if halt && expected.is_err() {
                return;
            }
        }
        let texts = self.texts.each_ref().map(Vec::as_slice);
        let expected = plain::write_end(plain, at, kind, texts, self.status, &self.error);
        let end = End { texts, status: self.status, error: &self.error };
        let answer = writer.end(&end).map_err(Refusal::number);
        let whole = expected.map(|count| &plain[..at + count]);
        assert_eq!(answer, whole, "to {kind:02X}: {self:?}");
        tally.count(&expected);
    }
}

fn item(rng: &mut Rng, full: bool) -> Given {
    let any = rng.between(32, 83) as u8;
    let id = rng.pick(&[7, 9, 12, 14, 15, 32, 52, 82, 83, any]);
    let uri = plain::has_uri(full, id).then(|| text(rng));
    (id, uri, text(rng))
}
