//! Texts for BaseX, what is done to their bytes, and how much room they get.

use crate::rng::Rng;

/// A text, mostly short, in which 00 and FF are rare, frequent, or all there is.
pub fn text(rng: &mut Rng) -> Vec<u8> {
    let length = match rng.below(20) {
        0 => rng.between(0, 3_000),
        1..=3 => rng.between(0, 200),
        4 | 5 => 0,
        _ => rng.between(0, 36),
    };
    let special = rng.pick(&[0, 4, 60, 128, 256]);
    (0..length).map(|_| byte(rng, special)).collect()
}

/// One that is 00 or FF so often in 256 times, at least.
fn byte(rng: &mut Rng, special: usize) -> u8 {
    if rng.below(256) < special {
        rng.pick(&[0x00, 0xFF])
    } else {
        rng.byte()
    }
}

/// A first byte: of every kind in turn, now and then of none.
pub fn kind(rng: &mut Rng) -> u8 {
    const CODED: [u8; 14] =
        [0x00, 0x02, 0x03, 0x04, 0x05, 0x06, 0x07, 0x08, 0x09, 0x0C, 0x0D, 0x0E, 0x1E, 0x1F];
    match rng.below(40) {
        0 => {
            let any = rng.byte();
            rng.pick(&[0x01, 0x0A, 0x0B, 0x0F, 0x10, 0x1D, 0xFF, any])
        }
        1..=6 => rng.pick(&[0x20, 0x21, 0x7F, 0xFD, 0xFE]),
        7..=18 => rng.pick(&[0x04, 0x1F]),
        _ => rng.pick(&CODED),
    }
}

/// Does something to the bytes; a few draws do no harm.
pub fn damage(rng: &mut Rng, bytes: &mut Vec<u8>) {
    for _ in 0..rng.pick(&[1, 1, 1, 2, 5]) {
        let at = rng.between(0, bytes.len());
        let any = rng.byte();
        let odd = rng.pick(&[0x00, 0x01, 0x02, 0x06, 0x10, 0x54, 0xFF, 0xFF, any]);
        match rng.below(6) {
            0 => bytes.truncate(at),
            1 => bytes.truncate(bytes.len() - rng.between(0, bytes.len().min(4))),
            2 => bytes.insert(at, odd),
            3 if at < bytes.len() => drop(bytes.remove(at)),
            4 if at < bytes.len() => bytes[at] = odd,
            _ => *bytes = garbage(rng),
        }
    }
}

fn garbage(rng: &mut Rng) -> Vec<u8> {
    let special = rng.pick(&[8, 60, 128]);
    (0..rng.between(0, 60)).map(|_| byte(rng, special)).collect()
}

/// Bytes behind what is read, which nobody looks at.
pub fn put_behind(rng: &mut Rng, bytes: &mut Vec<u8>) {
    if rng.one_in(2) {
        let more = garbage(rng);
        bytes.extend(more);
    }
}

/// Room for what takes `exact` bytes, or not quite.
pub fn room(rng: &mut Rng, exact: usize) -> usize {
    match rng.below(10) {
        0 => 0,
        1 | 2 => exact.saturating_sub(1),
        3 => rng.between(0, exact),
        4 | 5 => exact + rng.between(1, 40),
        _ => exact,
    }
}

/// All bytes of up to `longest` letters of an alphabet.
pub fn words(alphabet: &[u8], longest: u32) -> impl Iterator<Item = Vec<u8>> + '_ {
    let letters = alphabet.len();
    (0..=longest).flat_map(move |length| {
        (0..letters.pow(length)).map(move |mut number| {
            let mut letter = |_| {
                let letter = alphabet[number % letters];
                number /= letters;
                letter
            };
            (0..length).map(&mut letter).collect()
        })
    })
}
