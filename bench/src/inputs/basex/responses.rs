//! Responses.

use super::super::strings::spell;
use super::super::Rng;
use super::{any_text, first_byte, known, near, offered, short_text, words, FULL, KINDS};

const RANDOM_READ: usize = 100_000;
const RANDOM_WRITTEN: usize = 30_000;
/// Short responses of each kind that are cut everywhere.
const CUT: usize = 30;

/// What a response is to be made of, published or not.
#[derive(Debug)]
pub struct Answered {
    /// The first byte of the request.
    pub kind: u8,
    pub items: Vec<Listed>,
    pub texts: [Vec<u8>; 2],
    pub status: u8,
    pub error: Vec<u8>,
}

/// An item to be written; the URI is empty where it has none.
#[derive(Debug)]
pub struct Listed {
    pub id: u8,
    pub uri: Vec<u8>,
    pub text: Vec<u8>,
}

/// "in FULL a URI string after 12, 14 and 82"
fn has_uri(kind: u8, id: u8) -> bool {
    kind == FULL && [12, 14, 82].contains(&id)
}

impl Answered {
    /// As it is published; for an unknown kind, a query's.
    fn sound(rng: &mut Rng, kind: u8, text: fn(&mut Rng) -> Vec<u8>) -> Self {
        let (.., ahead, error) = known(kind).unwrap_or(KINDS[0]);
        let count = if ahead == 0 { rng.pick(&[0, 1, 2, 3, 9]) } else { 0 };
        let items = (0..count).map(|_| Listed::sound(rng, kind, text)).collect();
        let texts = [0, 1].map(|k| if k < ahead { text(rng) } else { vec![] });
        let status = rng.pick(&[0, 0, 1]);
        let error = if error && status == 1 { text(rng) } else { vec![] };
        Self { kind, items, texts, status, error }
    }

    /// A value that is not allowed, though not every draw is one.
    fn spoil(&mut self, rng: &mut Rng) {
        let (place, any) = (rng.below(2), rng.byte());
        match rng.below(5) {
            0 => self.status = rng.pick(&[0, 1, 2, 0xFF, any]),
            1 => self.error = any_text(rng),
            2 => self.texts[place] = any_text(rng),
            3 => {
                let id = rng.pick(&[7, 12, 82]);
                self.items.push(Listed { id, uri: any_text(rng), text: any_text(rng) });
            }
            _ => {
                let id = rng.pick(&[0, 6, 7, 15, 16, 31, 32, 83, 84, 0xFF, any]);
                self.items.push(Listed { id, uri: vec![], text: any_text(rng) });
            }
        }
    }

    pub fn texts(&self) -> [&[u8]; 2] {
        self.texts.each_ref().map(Vec::as_slice)
    }

    /// The bytes of a sound one.
    pub fn bytes(&self) -> Vec<u8> {
        let (.., ahead, error) = known(self.kind).unwrap_or(KINDS[0]);
        let mut bytes: Vec<_> = self.items.iter().flat_map(|item| item.bytes(self.kind)).collect();
        bytes.extend(self.texts[..ahead].iter().flat_map(|text| spell(text)));
        if ahead == 0 {
            bytes.push(0);
        }
        bytes.push(self.status);
        if error && self.status == 1 {
            bytes.extend(spell(&self.error));
        }
        bytes
    }
}

impl Listed {
    fn sound(rng: &mut Rng, kind: u8, text: fn(&mut Rng) -> Vec<u8>) -> Self {
        let any = rng.between(32, 83) as u8;
        let id = rng.pick(&[7, 12, 14, 15, 82, any, any]);
        let uri = if has_uri(kind, id) { text(rng) } else { vec![] };
        Self { id, uri, text: text(rng) }
    }

    fn bytes(&self, kind: u8) -> Vec<u8> {
        let uri = if has_uri(kind, self.id) { spell(&self.uri) } else { vec![] };
        [&[self.id], &uri[..], &spell(&self.text)].concat()
    }
}

/// Responses to be read, each with the first byte of its request: everything short for a request of
/// each form; every byte where an id or a status may stand, for every first byte; short ones of
/// every kind cut and changed everywhere; random ones, every second damaged, some read for another
/// request.
pub fn responses_read() -> impl Iterator<Item = (u8, Vec<u8>)> {
    let short = words(&[0x00, 0x01, 0x02, 0x0C, 0x61, 0xFF], 5);
    let forms = [0x00, 0x01, 0x04, 0x08, 0x1F, 0x20].into_iter();
    let short = forms.flat_map(move |kind| short.clone().into_iter().map(move |w| (kind, w)));
    let bytes = (0..=0xFF).flat_map(|kind| {
        (0..=0xFF).flat_map(move |byte| {
            let places = [[byte, 0, 0, 0, 0], [0, byte, 0, 0, byte], [0, 0, byte, 0x61, 0]];
            places.map(|bytes| (kind, bytes.to_vec()))
        })
    });
    let mut rng = Rng::new(34);
    let cut = (0..CUT * KINDS.len()).flat_map(move |k| {
        let kind = KINDS[k % KINDS.len()].0;
        let near = near(&Answered::sound(&mut rng, kind, short_text).bytes());
        near.into_iter().map(move |bytes| (kind, bytes))
    });
    let mut rng = Rng::new(35);
    let random = (0..RANDOM_READ).map(move |k| {
        let kind = first_byte(&mut rng);
        let bytes = Answered::sound(&mut rng, kind, any_text).bytes();
        let bytes = offered(&mut rng, bytes, k % 2 == 1);
        (if rng.one_in(10) { first_byte(&mut rng) } else { kind }, bytes)
    });
    short.chain(bytes).chain(cut).chain(random)
}

/// Responses to be written: for every first byte every byte as the id of an item, with a URI and
/// without, and as the status; then random ones, of which a third holds a value that is not
/// allowed.
pub fn responses() -> impl Iterator<Item = Answered> {
    let all = (0..=0xFF).flat_map(|kind| (0..=0xFF).map(move |byte| (kind, byte)));
    let all = all.map(|(kind, byte)| {
        let items = [&b""[..], b"u"].map(|uri| Listed { id: byte, uri: uri.into(), text: vec![7] });
        Answered { kind, items: items.into(), texts: [vec![], vec![]], status: byte, error: vec![] }
    });
    let mut rng = Rng::new(36);
    let random = (0..RANDOM_WRITTEN).map(move |_| {
        let kind = first_byte(&mut rng);
        let mut answered = Answered::sound(&mut rng, kind, any_text);
        if rng.one_in(3) {
            answered.spoil(&mut rng);
        }
        answered
    });
    all.chain(random)
}
