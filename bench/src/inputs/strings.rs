//! BaseX strings: texts to be written, strings to be decoded, sound and damaged, and texts to be
//! timed. Strings are put together by an encoder of their own.

use super::Rng;

const RANDOM_TEXTS: usize = 60_000;
const RANDOM_STRINGS: usize = 200_000;

/// Around the lengths at which something changes in a search by blocks.
const EDGES: [usize; 22] =
    [0, 1, 2, 7, 8, 9, 15, 16, 17, 18, 31, 32, 33, 47, 48, 49, 127, 128, 129, 255, 256, 257];

/// How many bytes there are for one that is 00 or FF; 0: none is.
const DENSITIES: [usize; 8] = [0, 1, 2, 3, 8, 20, 100, 500];

/// A text, and where it is put in an output of `room` bytes.
pub struct Spelling {
    pub text: Vec<u8>,
    pub room: usize,
    pub at: usize,
}

/// Bytes in which a string starts at `at`, sound or not, and where it is put.
pub struct Reading {
    pub bytes: Vec<u8>,
    pub at: usize,
    pub room: usize,
    pub to: usize,
}

/// Texts of the lengths at the edges, with a 00 or FF at each place; then random ones.
pub fn spellings() -> impl Iterator<Item = Spelling> {
    let mut rng = Rng::new(21);
    let mut texts = Vec::new();
    for length in EDGES {
        let plain = text(&mut rng, length, 0);
        for byte in [0, 0xFF] {
            texts.push(vec![byte; length]);
            for place in 0..length {
                let mut text = plain.clone();
                text[place] = byte;
                texts.push(text);
            }
        }
        texts.push(plain);
    }
    let drawn = (0..RANDOM_TEXTS).map(|_| drawn(&mut rng)).collect::<Vec<_>>();
    let mut rng = Rng::new(22);
    texts.into_iter().chain(drawn).map(move |text| {
        let (room, at) = place(&mut rng, spell(&text).len());
        Spelling { text, room, at }
    })
}

/// Strings of such texts, two of three damaged, with bytes ahead of them and behind.
pub fn readings() -> impl Iterator<Item = Reading> {
    let mut rng = Rng::new(23);
    (0..RANDOM_STRINGS).map(move |_| {
        let text = drawn(&mut rng);
        let mut string = spell(&text);
        match rng.below(3) {
            0 => {}
            1 => damage(&mut rng, &mut string),
            _ => {
                damage(&mut rng, &mut string);
                damage(&mut rng, &mut string);
            }
        }
        let ahead = rng.pick(&[0, 0, 1, 5, 16]);
        let mut bytes = noise(&mut rng, ahead);
        bytes.extend(string);
        let behind = rng.pick(&[0, 0, 1, 3, 40]);
        bytes.extend(noise(&mut rng, behind));
        let anywhere = rng.between(0, bytes.len() + 2);
        let at = rng.pick(&[ahead, ahead, ahead, ahead, ahead, anywhere, usize::MAX]);
        let (room, to) = place(&mut rng, text.len());
        Reading { bytes, at, room, to }
    })
}

pub(super) fn drawn(rng: &mut Rng) -> Vec<u8> {
    let longest = rng.pick(&[4, 20, 40, 150, 600]);
    let edge = rng.pick(&EDGES);
    let any = rng.between(0, longest);
    let length = rng.pick(&[any, any, any, edge]);
    let density = rng.pick(&DENSITIES);
    text(rng, length, density)
}

/// A text in which one of `density` bytes is 00 or FF, or none is.
pub(super) fn text(rng: &mut Rng, length: usize, density: usize) -> Vec<u8> {
    let specials = rng.pick(&[&[0][..], &[0xFF], &[0, 0xFF]]);
    let byte = |_| {
        if density > 0 && rng.one_in(density) {
            rng.pick(specials)
        } else {
            rng.between(1, 0xFE) as u8
        }
    };
    (0..length).map(byte).collect()
}

pub(super) fn spell(text: &[u8]) -> Vec<u8> {
    let mut string = Vec::new();
    for &byte in text {
        if byte == 0 || byte == 0xFF {
            string.push(0xFF);
        }
        string.push(byte);
    }
    string.push(0);
    string
}

/// Bytes of which many are 00 or FF.
pub(super) fn noise(rng: &mut Rng, length: usize) -> Vec<u8> {
    let any = rng.bytes(length);
    any.into_iter().map(|byte| rng.pick(&[byte, byte, 0, 0xFF])).collect()
}

/// One change, though not every draw is one.
pub(super) fn damage(rng: &mut Rng, string: &mut Vec<u8>) {
    let place = rng.below(string.len().max(1));
    let any = rng.byte();
    let byte = rng.pick(&[0, 0xFF, 1, 0xFE, any]);
    match rng.below(6) {
        // The end comes too early, or an escape is cut in two.
        0 => string.truncate(place),
        1 => drop(string.pop()),
        2 => string.insert(place, byte),
        3 => string.splice(place..string.len().min(place + 1), []).for_each(drop),
        4 => string.extend([0xFF, byte]),
        _ => string.iter_mut().skip(place).take(1).for_each(|at| *at = byte),
    }
}

/// Room for so many bytes and a place in it, now and then too little, or far behind its end.
fn place(rng: &mut Rng, exact: usize) -> (usize, usize) {
    let at = rng.pick(&[0, 0, 0, 1, 7, 33]);
    let less = rng.between(0, exact);
    let room = at
        + match rng.below(12) {
            0 => exact.saturating_sub(1),
            1 => less,
            2..=4 => exact + rng.between(1, 40),
            _ => exact,
        };
    match rng.below(30) {
        0 => (room, room),
        1 => (room, room + 1),
        2 => (room, usize::MAX - rng.below(3)),
        _ => (room, at),
    }
}

/// A million bytes of XML, in which none is 00 or FF.
pub fn xml() -> Vec<u8> {
    let mut xml = b"<items>".to_vec();
    for k in 0.. {
        let (price, cents, stock) = (k * 7 % 977, k % 100, k * 13 % 57);
        let item = format!(
            "\n  <item id=\"{k}\" stock=\"{stock}\"><name>Item {k}</name><price>{price}.{cents:02}</price></item>"
        );
        if xml.len() + item.len() > 1_000_000 {
            break;
        }
        xml.extend(item.bytes());
    }
    xml.resize(1_000_000, b' ');
    xml
}

/// A million bytes, one of `density` being 00 or FF.
pub fn dense(density: usize) -> Vec<u8> {
    let mut rng = Rng::new(24);
    (0..1_000_000)
        .map(|_| match rng.one_in(density) {
            true => rng.pick(&[0, 0xFF]),
            false => rng.between(1, 0xFE) as u8,
        })
        .collect()
}

/// Pieces of the XML, so many bytes each.
pub fn pieces(length: usize) -> Vec<Vec<u8>> {
    xml().chunks_exact(length).step_by(100 / length + 1).take(1_000).map(<[u8]>::to_vec).collect()
}

#[cfg(test)]
mod tests {
    use super::*;

    #[test]
    fn xml_has_no_escapes() {
        let xml = xml();
        assert_eq!(xml.len(), 1_000_000);
        assert_eq!(spell(&xml).len(), 1_000_001);
        for length in [8, 32] {
            let pieces = pieces(length);
            assert!(pieces.len() == 1_000 && pieces.iter().all(|piece| piece.len() == length));
        }
    }

    #[test]
    fn strings_of_all_kinds() {
        let dense = |text: &[u8]| spell(text).len() > 3 * text.len() / 2;
        assert!(spellings().filter(|s| s.text.len() > 100 && dense(&s.text)).count() > 1_000);
        assert!(spellings().filter(|s| s.at >= s.room).count() > 1_000);
        assert!(readings().filter(|r| r.at > r.bytes.len()).count() > 1_000);
        assert!(readings().count() == RANDOM_STRINGS);
    }
}
