//! Joining: answer, what is handed over, and every byte of the buffer and behind it. A gathering is
//! offered twice, the second time with a buffer that is lent shorter now and then.

use crate::lent::{fill, hex};
use crate::rng::Rng;
use crate::same::side;
use crate::tally::Tally;
use bench::inputs::{gatherings, Input, Offered};
use bench::plain::{self, Gathered, What};
use keddorimp::sedna::{Assembly, Gathering, Joined};
use keddorimp::Refusal;

pub fn run() -> Tally {
    let mut rng = Rng::new(6);
    let mut tally = Tally::new("joining");
    let mut both = Both::default();
    for offered in gatherings() {
        both.open(&offered);
        for input in &offered.offers {
            tally.count(&both.offer(offered.room, input));
        }
        both.open(&offered);
        for input in &offered.offers {
            let shorter = rng.between(0, offered.room);
            let room = if rng.one_in(4) { shorter } else { offered.room };
            tally.count(&both.offer(room, input));
        }
    }
    tally.complete(&[1, 2, 3, 4, 5, 6, 7, 8, 9, 12])
}

/// One gathering, as each of the two keeps it, and a buffer for each.
struct Both {
    assembly: Assembly,
    ours: Vec<u8>,
    gathering: plain::Gathering,
    plain: Vec<u8>,
}

impl Default for Both {
    fn default() -> Self {
        let gathering = plain::Gathering::CLOSED;
        Self { assembly: Assembly::new(), ours: vec![], gathering, plain: vec![] }
    }
}

impl Both {
    fn open(&mut self, offered: &Offered) {
        fill(&mut self.ours, offered.room);
        fill(&mut self.plain, offered.room);
        self.gathering = plain::Gathering::open(offered.what);
        match opened(offered.what) {
            Some(what) => self.assembly.open(what),
            None => self.assembly = Assembly::new(),
        }
    }

    /// The answer of both to one message, with so much of the buffer lent.
    fn offer(&mut self, room: usize, input: &Input) -> Result<usize, u8> {
        let before = self.gathering;
        let front = self.ours.as_ptr();
        let buffer = &mut self.ours[..room];
        let ours = self.assembly.join(buffer, side(input.side), &input.bytes);
        let plain = plain::read(input.side, &input.bytes).and_then(|message| {
            Ok((self.gathering.join(&mut self.plain[..room], &message)?, message.count))
        });
        let alike = match (ours.map_err(Refusal::number), plain) {
            (Ok((joined, count)), Ok((gathered, counted))) => {
                count == counted && same(joined, gathered, &self.plain, front)
            }
            (Err(ours), Err(plain)) => ours == plain,
            _ => false,
        };
        let told = format!("{ours:?}");
        let begun = self.assembly.begun() == self.gathering.begun;
        assert!(
            alike && begun && self.ours == self.plain,
            "from the {:?} to {before:?}, room {room}: {told}, plain {plain:?}\n{}",
            input.side,
            hex(&input.bytes)
        );
        plain.map(|(_, count)| count)
    }
}

fn opened(what: What) -> Option<Gathering> {
    match what {
        What::Nothing => None,
        What::Statement => Some(Gathering::Statement),
        What::Item => Some(Gathering::Item),
        What::TypedItem => Some(Gathering::TypedItem),
    }
}

/// What is finished is the front part of the buffer.
fn same(joined: Joined, gathered: Gathered, buffer: &[u8], front: *const u8) -> bool {
    let whole = |text: &[u8], len| text.as_ptr() == front && *text == buffer[..len];
    match (joined, gathered) {
        (Joined::Part, Gathered::Part) => true,
        (Joined::Statement { format, text }, Gathered::Statement { len, format: f }) => {
            format == f && whole(text, len)
        }
        (Joined::Item { text }, Gathered::Item { len }) => whole(text, len),
        (
            Joined::TypedItem { class, kind, text },
            Gathered::TypedItem { len, class: c, kind: k },
        ) => (class, kind) == (c, k) && whole(text, len),
        _ => false,
    }
}
