//! What is cut: texts at the edges of document 01's numbers, and some of any length.

use super::valid::{class, kind};
use super::Rng;

/// Just below, at and above what one, two or three messages hold.
const EDGES: [usize; 23] = [
    0, 1, 2, 10_226, 10_227, 10_228, 10_231, 10_232, 10_233, 10_234, 10_235, 10_236, 20_461,
    20_462, 20_463, 20_466, 20_467, 20_468, 20_469, 20_470, 20_471, 30_702, 30_703,
];

const RANDOM_CUTS: usize = 150;

/// A statement or an item to be cut.
#[derive(Debug)]
pub enum Cut {
    Statement { format: u8 },
    Item,
    TypedItem { marks: [u8; 2], url: Option<Vec<u8>> },
}

/// Each kind of cut with each text, values that are not allowed included.
pub fn cuts() -> Vec<(Cut, Vec<u8>)> {
    let mut rng = Rng::new(11);
    let random: Vec<_> = (0..RANDOM_CUTS).map(|_| rng.between(0, 60_000)).collect();
    let mut cuts = Vec::new();
    for bytes in EDGES.into_iter().chain(random) {
        for cut in kinds(&mut rng, bytes) {
            let text = rng.bytes(bytes);
            cuts.push((cut, text));
        }
    }
    cuts
}

fn kinds(rng: &mut Rng, bytes: usize) -> Vec<Cut> {
    let format = rng.byte().max(2);
    let mut kinds: Vec<_> = [0, 1, format].map(|format| Cut::Statement { format }).into();
    kinds.push(Cut::Item);
    let marks = [class(rng), kind(rng)];
    for marks in [marks, [0, marks[1]], [marks[0], 7], [9, 62]] {
        kinds.push(Cut::TypedItem { marks, url: None });
    }
    let any = rng.between(2, 10_225);
    let rest = 10_227usize.saturating_sub(bytes);
    for url in [0, 1, any, rest, 10_226, 10_227, 10_228, 20_000] {
        kinds.push(Cut::TypedItem { marks, url: Some(rng.bytes(url)) });
    }
    kinds.push(Cut::TypedItem { marks: [0, 0], url: Some(rng.bytes(10_228)) });
    kinds
}

/// Lengths for which parts are counted only: no text is that long.
pub fn lengths() -> Vec<usize> {
    let mut rng = Rng::new(12);
    let mut lengths: Vec<_> = EDGES.into();
    lengths.extend((0..1_000).map(|_| rng.next() as usize >> rng.below(64)));
    for room in [10_227, 10_232, 10_234, 10_235] {
        let most = usize::MAX / room * room;
        lengths.extend([most - 1, most, most.saturating_add(1), usize::MAX - room]);
    }
    lengths.extend([usize::MAX, usize::MAX - 1]);
    lengths
}

/// Part numbers behind `count`, up to those whose place in the text would wrap.
pub fn beyond(count: usize) -> [usize; 8] {
    let wraps = usize::MAX / 10_234;
    [count, count + 1, count + 2, wraps, wraps + 1, wraps + 2, usize::MAX - 1, usize::MAX]
}
