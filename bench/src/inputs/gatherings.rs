//! Messages for gatherings: statements and items in random cuttings, now and then with a message
//! that does not belong there.

use super::damage::damage;
use super::valid::sample;
use super::{Input, Rng, MESSAGES};
use crate::plain::{What, BODY_MAX};

const GATHERINGS: usize = 20_000;

/// The messages that some gathering takes: the three ends last.
const TAKEN: [u32; 7] = [300, 301, 355, 360, 302, 370, 375];

/// What is opened, in a buffer of how many bytes, and what it is offered.
pub struct Offered {
    pub what: What,
    pub room: usize,
    pub offers: Vec<Input>,
}

pub fn gatherings() -> impl Iterator<Item = Offered> {
    let mut rng = Rng::new(13);
    (0..GATHERINGS).map(move |_| gathering(&mut rng))
}

fn gathering(rng: &mut Rng) -> Offered {
    let what = rng.pick(&[
        What::Nothing,
        What::Statement,
        What::Statement,
        What::Item,
        What::Item,
        What::TypedItem,
        What::TypedItem,
    ]);
    // Short texts mostly, so that many parts find room; in some gatherings long ones.
    let longest = rng.pick(&[0, 3, 40, 40, 40, 400, BODY_MAX - 6]);
    let mut offers: Vec<_> = (0..rng.between(0, 9)).map(|_| part(rng, what, longest)).collect();
    match what {
        What::TypedItem => offers.insert(0, message(rng, 355, longest)),
        What::Statement if rng.one_in(4) => offers.insert(0, message(rng, 300, longest)),
        _ => {}
    }
    offers.push(end(rng, what));
    let exact: usize = offers.iter().map(text).sum();
    for _ in 0..rng.pick(&[0, 0, 1, 1, 3]) {
        let at = rng.between(0, offers.len());
        let other = disturbance(rng, longest);
        offers.insert(at, other);
    }
    // What comes behind the end of a gathering.
    offers.extend((0..rng.below(3)).map(|_| part(rng, what, longest)));
    let held: usize = offers.iter().map(|offer| offer.bytes.len()).sum();
    let any = rng.between(0, held);
    let room = rng.pick(&[0, any, exact, exact, exact.saturating_sub(1), held, held]);
    Offered { what, room, offers }
}

/// How many bytes of text a sound part has.
fn text(part: &Input) -> usize {
    let bytes = &part.bytes;
    let int = |at: usize| u32::from_be_bytes(bytes[at..at + 4].try_into().unwrap());
    bytes.len()
        - match int(0) {
            300 | 301 => 14,
            355 if bytes[10] == 1 => 21 + int(12) as usize,
            355 => 16,
            360 => 13,
            _ => bytes.len(),
        }
}

fn part(rng: &mut Rng, what: What, longest: usize) -> Input {
    let instruction = match what {
        What::Statement => 301,
        What::Item | What::TypedItem => 360,
        What::Nothing => rng.pick(&TAKEN),
    };
    message(rng, instruction, longest)
}

fn end(rng: &mut Rng, what: What) -> Input {
    let instruction = match what {
        What::Statement => 302,
        What::Item | What::TypedItem => rng.pick(&[370, 375]),
        What::Nothing => rng.pick(&TAKEN),
    };
    message(rng, instruction, 0)
}

/// Another message of a gathering, any message, or a damaged one.
fn disturbance(rng: &mut Rng, longest: usize) -> Input {
    let any = rng.pick(&MESSAGES).0;
    let taken = rng.pick(&TAKEN);
    let instruction = if rng.one_in(3) { any } else { taken };
    if rng.one_in(4) {
        let row = *MESSAGES.iter().find(|m| m.0 == instruction).expect("a known instruction");
        let length = rng.between(0, longest);
        let sound = sample(rng, row, length);
        return damage(rng, sound);
    }
    message(rng, instruction, longest)
}

/// A sound message with a text of up to so many bytes, often of none.
fn message(rng: &mut Rng, instruction: u32, longest: usize) -> Input {
    let row = *MESSAGES.iter().find(|m| m.0 == instruction).expect("a known instruction");
    let length = rng.pick(&[0, 1, 1, 1]) * rng.between(0, longest);
    sample(rng, row, length + 6).into_input()
}

#[cfg(test)]
mod tests {
    use super::*;
    use crate::plain::{self, read, Gathering};

    #[test]
    fn many_fill_their_buffer_and_many_overrun_it_by_a_byte() {
        let (mut full, mut spoilt) = (0, 0);
        for offered in gatherings() {
            let mut gathering = Gathering::open(offered.what);
            let mut buffer = vec![0; offered.room];
            for offer in &offered.offers {
                let Ok(message) = read(offer.side, &offer.bytes) else { continue };
                let missing = gathering.held + text(offer) == offered.room + 1;
                match gathering.join(&mut buffer, &message) {
                    Err(12) if missing => spoilt += 1,
                    Ok(plain::Gathered::Part) => {
                        full += usize::from(gathering.held == offered.room)
                    }
                    _ => {}
                }
            }
        }
        assert!(full >= 1_000 && spoilt >= 500, "{full} {spoilt}");
    }
}
