//! Requests.

use super::super::strings::spell;
use super::super::Rng;
use super::{any_text, first_byte, known, near, offered, short_text, words, COMMAND, KINDS};

const RANDOM_READ: usize = 100_000;
const RANDOM_WRITTEN: usize = 40_000;
/// Short requests of each kind that are cut everywhere.
const CUT: usize = 20;

/// A request to be written, published or not.
#[derive(Debug)]
pub struct Asked {
    pub kind: u8,
    pub texts: [Vec<u8>; 4],
}

impl Asked {
    /// As many texts as the kind takes, the others empty.
    fn sound(rng: &mut Rng, kind: u8, text: fn(&mut Rng) -> Vec<u8>) -> Self {
        let mut texts = [const { vec![] }; 4];
        texts[..known(kind).map_or(0, |row| row.1)].fill_with(|| text(rng));
        if kind >= COMMAND {
            texts[0].insert(0, kind);
        }
        Self { kind, texts }
    }

    pub fn texts(&self) -> [&[u8]; 4] {
        self.texts.each_ref().map(Vec::as_slice)
    }

    /// The bytes of a sound one; for an unknown kind, the kind alone.
    pub fn bytes(&self) -> Vec<u8> {
        let strings = known(self.kind).map_or(0, |row| row.1);
        let texts = self.texts[..strings].iter().flat_map(|text| spell(text));
        let code = (self.kind < COMMAND || self.kind == 0xFF).then_some(self.kind);
        code.into_iter().chain(texts).collect()
    }
}

/// Requests to be read: everything short behind every first byte; short ones of every kind cut and
/// changed everywhere; random ones, every second damaged.
pub fn requests_read() -> impl Iterator<Item = Vec<u8>> {
    let short = words(&[0x00, 0x61, 0xFF], 5);
    let behind = (0..=0xFF)
        .flat_map(move |first| short.clone().into_iter().map(move |w| [&[first], &w[..]].concat()));
    let mut rng = Rng::new(31);
    let cut = (0..CUT * KINDS.len()).flat_map(move |k| {
        near(&Asked::sound(&mut rng, KINDS[k % KINDS.len()].0, short_text).bytes())
    });
    let mut rng = Rng::new(32);
    let random = (0..RANDOM_READ).map(move |k| {
        let kind = first_byte(&mut rng);
        let bytes = Asked::sound(&mut rng, kind, any_text).bytes();
        offered(&mut rng, bytes, k % 2 == 1)
    });
    [vec![]].into_iter().chain(behind).chain(cut).chain(random)
}

/// Requests to be written: every kind with up to four texts, commands with every first byte, and
/// random ones, some with a text that the kind does not take or with which no command starts.
pub fn requests() -> impl Iterator<Item = Asked> {
    let given = |count: usize| std::array::from_fn(|k| vec![b'a'; usize::from(k < count)]);
    let all = (0..=0xFF).flat_map(move |kind| (0..5).map(move |n| Asked { kind, texts: given(n) }));
    let starts = [COMMAND, 0xFE].into_iter().flat_map(|kind| {
        (0..=0xFF).map(move |first| Asked { kind, texts: [vec![first], vec![], vec![], vec![]] })
    });
    let mut rng = Rng::new(33);
    let random = (0..RANDOM_WRITTEN).map(move |_| {
        let kind = first_byte(&mut rng);
        let mut asked = Asked::sound(&mut rng, kind, any_text);
        if rng.one_in(4) {
            let place = rng.below(4);
            asked.texts[place] = any_text(&mut rng);
        }
        asked
    });
    all.chain(starts).chain(random)
}
