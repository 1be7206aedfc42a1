//! The requests and responses that are timed.

use super::super::strings::{pieces, xml};
use super::super::Rng;
use super::{Answered, Asked, Listed, ADD, COMMAND, FULL};

const SMALL_REQUESTS: usize = 500;
const ITEMS: usize = 1_000;
/// Responses with items, so that no branch predictor knows their lengths by heart.
const LISTINGS: usize = 4;

/// Requests of one kind with so many texts, of 8 to 64 bytes of XML each.
pub fn small_requests(kind: u8, texts: usize) -> Vec<Asked> {
    let mut rng = Rng::new(41);
    let all = pieces(64);
    let request = |_| {
        let mut request = Asked { kind, texts: [const { vec![] }; 4] };
        request.texts[..texts].fill_with(|| small_text(&mut rng, &all));
        if kind == COMMAND {
            // A command starts with a letter.
            request.texts[0].insert(0, b'X');
        }
        request
    };
    (0..SMALL_REQUESTS).map(request).collect()
}

fn small_text(rng: &mut Rng, pieces: &[Vec<u8>]) -> Vec<u8> {
    let length = rng.between(8, 64);
    pieces[rng.below(pieces.len())][..length].to_vec()
}

/// ADD, with a path and a million bytes of XML.
pub fn large_request() -> Asked {
    Asked { kind: ADD, texts: [b"stock/items.xml".to_vec(), xml(), vec![], vec![]] }
}

/// Responses to RESULTS or FULL with a thousand items of 8 to 64 bytes; in FULL, one in ten of them
/// has a URI.
pub fn listings(kind: u8) -> Vec<Answered> {
    let mut rng = Rng::new(42);
    let all = pieces(64);
    let mut item = || {
        let id = rng.pick(&[11, 11, 11, 11, 8, 11, 32, 52, 46, 12]);
        let uri = if kind == FULL && id == 12 { b"stock/items.xml".to_vec() } else { vec![] };
        Listed { id, uri, text: small_text(&mut rng, &all) }
    };
    let listing = |_| Answered {
        kind,
        items: (0..ITEMS).map(|_| item()).collect(),
        texts: [vec![], vec![]],
        status: 0,
        error: vec![],
    };
    (0..LISTINGS).map(listing).collect()
}

/// The response to a command with a million bytes of XML.
pub fn large_answer() -> Answered {
    let texts = [xml(), b"Query executed in 1.2 ms.".to_vec()];
    Answered { kind: COMMAND, items: vec![], texts, status: 0, error: vec![] }
}

#[cfg(test)]
mod tests {
    use super::super::{BIND, RESULTS};
    use super::*;
    use crate::plain::basex::{read_request, read_response};

    #[test]
    fn all_are_sound() {
        let small = small_requests(BIND, 4).into_iter().chain(small_requests(COMMAND, 1));
        for request in small.chain([large_request()]) {
            let bytes = request.bytes();
            let mut out = vec![0; bytes.len()];
            let read = read_request(&bytes, &mut out).unwrap();
            assert_eq!((read.texts, read.read), (request.texts(), bytes.len()));
        }
        for answer in listings(RESULTS).into_iter().chain(listings(FULL)).chain([large_answer()]) {
            let bytes = answer.bytes();
            let mut out = vec![0; bytes.len()];
            let read = read_response(answer.kind, &bytes, &mut out).unwrap();
            assert_eq!((read.texts, read.items), (answer.texts(), answer.items.len()));
            assert_eq!(read.read, bytes.len());
        }
    }
}
