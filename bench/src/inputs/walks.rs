//! Random conversations: from a fresh session mostly what may come next, now and then what may not.

use super::damage::damage;
use super::valid::{body_length, sample, Sample};
use super::{other, Input, Rng, MESSAGES};
use crate::plain::instruction::CLOSE;
use crate::plain::{Session, Shape, Side};

const CONVERSATIONS: usize = 3_000;
/// Offers to a session before it is left unfinished.
const LONGEST: usize = 120;

/// Offers to one session after another.
pub fn conversations() -> impl Iterator<Item = Vec<Input>> {
    let mut rng = Rng::new(6);
    (0..CONVERSATIONS).map(move |_| conversation(&mut rng))
}

fn conversation(rng: &mut Rng) -> Vec<Input> {
    let mut session = Session::FRESH;
    let mut offers = Vec::new();
    while !session.closed() && offers.len() < LONGEST {
        let input = offer(rng, session);
        // A refused offer is one too, and the session stays where it was.
        let _ = session.step(input.side, &input.bytes);
        offers.push(input);
    }
    if session.closed() {
        let more = rng.between(1, 6);
        offers.extend((0..more).map(|_| after_the_end(rng)));
    }
    offers
}

fn offer(rng: &mut Rng, session: Session) -> Input {
    match rng.below(20) {
        0 | 1 => any(rng).into_input(),
        2 => {
            let sample = plausible(rng, session);
            damage(rng, sample)
        }
        3 => {
            let Input { side, bytes } = plausible(rng, session).into_input();
            Input { side: other(side), bytes }
        }
        _ => plausible(rng, session).into_input(),
    }
}

fn after_the_end(rng: &mut Rng) -> Input {
    let sample = any(rng);
    if rng.one_in(3) {
        damage(rng, sample)
    } else {
        sample.into_input()
    }
}

/// A message with which the session goes on; seldom one that ends it, or few would get far.
fn plausible(rng: &mut Rng, session: Session) -> Sample {
    loop {
        let message = rng.pick(&MESSAGES);
        let shortest = sample(rng, message, 0);
        let mut after = session;
        let taken = after.step(shortest.side, &shortest.bytes).is_ok();
        let ends = after.closed() || message.0 == CLOSE;
        if taken && (!ends || rng.one_in(16)) {
            return of_some_length(rng, message);
        }
    }
}

fn any(rng: &mut Rng) -> Sample {
    let message = rng.pick(&MESSAGES);
    of_some_length(rng, message)
}

fn of_some_length(rng: &mut Rng, message: (u32, Side, Shape)) -> Sample {
    let length = if rng.one_in(12) { body_length(rng) } else { rng.between(0, 40) };
    sample(rng, message, length)
}

#[cfg(test)]
mod tests {
    use super::*;
    use std::collections::BTreeSet;

    #[test]
    fn enough_offers_in_every_phase_and_refusals_of_each_number() {
        let (mut offers, mut ended, mut places, mut seen) = (0, 0, BTreeSet::new(), [0; 10]);
        for conversation in conversations() {
            let mut session = Session::FRESH;
            for input in conversation {
                places.insert(session);
                let answer = session.step(input.side, &input.bytes);
                seen[usize::from(answer.err().unwrap_or(0))] += 1;
                offers += 1;
            }
            ended += usize::from(session.closed());
        }
        assert!(offers >= 100_000, "{offers}");
        assert!((CONVERSATIONS / 4..CONVERSATIONS).contains(&ended), "{ended}");
        assert!(seen.iter().all(|&n| n >= 40), "{seen:?}");
        assert_eq!(places.len(), super::super::ways::tests::PLACES);
    }
}
