//! Every message in every phase: the ways that lead there, and what is offered at their end.

use super::valid::sample;
use super::{Input, Rng, MESSAGES};
use crate::plain::{Session, Shape};
use std::collections::{BTreeSet, VecDeque};

/// The shortest way to each phase in each version, with each message that is accepted there behind
/// it: all that can be reached, through every door.
pub fn ways() -> Vec<Vec<Input>> {
    let offers = each_message();
    let mut ways = vec![vec![]];
    let mut known = BTreeSet::from([Session::FRESH]);
    let mut ahead = VecDeque::from([(Session::FRESH, vec![])]);
    while let Some((session, way)) = ahead.pop_front() {
        for (after, input) in accepted(session, &offers) {
            let longer = [&way[..], &[input]].concat();
            if known.insert(after) {
                ahead.push_back((after, longer.clone()));
            }
            ways.push(longer);
        }
    }
    ways
}

fn accepted(session: Session, offers: &[Input]) -> impl Iterator<Item = (Session, Input)> + '_ {
    offers.iter().filter_map(move |input| {
        let mut after = session;
        after.step(input.side, &input.bytes).ok()?;
        Some((after, input.clone()))
    })
}

/// One of each instruction with the shortest body, SessionParameters once for each version.
pub fn each_message() -> Vec<Input> {
    let mut rng = Rng::new(7);
    let mut all = Vec::new();
    for message in MESSAGES {
        let input = sample(&mut rng, message, 0).into_input();
        if message.2 == Shape::Session {
            all.extend((1..=4).map(|version| of_version(&input, version)));
        } else {
            all.push(input);
        }
    }
    all
}

fn of_version(input: &Input, version: u8) -> Input {
    let mut input = input.clone();
    input.bytes[8] = version;
    input
}

#[cfg(test)]
pub mod tests {
    use super::*;

    /// Phases with their versions: three ahead of the version and an end there; then 28 in each,
    /// without the update's DebugInfo in 1.0 and the four waits for options in 1.0 and 2.0.
    pub const PLACES: usize = 4 + 4 * 28 - 1 - 2 * 4;

    #[test]
    fn all_phases_and_versions_are_reached() {
        let mut places = BTreeSet::new();
        for way in ways() {
            let mut session = Session::FRESH;
            assert!(way.iter().all(|input| session.step(input.side, &input.bytes).is_ok()));
            places.insert(session);
        }
        assert_eq!(places.len(), PLACES);
        let phases: BTreeSet<_> = places.iter().map(Session::phase).collect();
        assert_eq!(phases.len(), 31);
        assert_eq!(each_message().len(), 46 + 3);
    }
}
