//! A call of both that stores bytes and tells numbers, as BaseX's do: the answer, every byte of the
//! output and behind it, and every number.

use super::writing::pattern;
use super::{hex, Disagreement};
use std::ops::Range;

/// Bytes behind the lent output that nobody may touch.
const GUARD: usize = 64;
/// More numbers than any call tells, so that writing behind them shows.
const NUMBERS: usize = 9;
/// What stands in them before a call.
pub const FILL: u64 = 99_999_999_999;

/// The count that both answered and the numbers that they told, or the refusal.
pub type Answer<const N: usize> = Result<(usize, [u64; N]), u8>;

/// Lends `room` bytes of output and more numbers than are told. Nothing may change but the told
/// numbers and the bytes that `stored` says, and on a refusal nothing at all.
pub fn both<const N: usize>(
    room: usize,
    plain: impl FnOnce(&mut [u8]) -> Answer<N>,
    library: impl FnOnce(&mut [u8], &mut [u64]) -> Result<usize, u8>,
    stored: impl FnOnce(usize, &[u64; N]) -> Range<usize>,
    what: impl Fn() -> String,
) -> Result<Answer<N>, Disagreement> {
    let before: Vec<_> = (0..room + GUARD).map(pattern).collect();
    let (mut expected, mut output) = (before.clone(), before.clone());
    let answer = plain(&mut expected[..room]);
    let mut numbers = [FILL; NUMBERS];
    let library = library(&mut output[..room], &mut numbers);
    let mut told = [FILL; NUMBERS];
    if let Ok((_, plain)) = &answer {
        told[..N].copy_from_slice(plain);
    }
    if library != answer.map(|(count, _)| count) || numbers != told || output != expected {
        return Err(format!(
            "into {room} bytes, {}\nplain:   {answer:?} {}\nlibrary: {library:?} {numbers:?} {}",
            what(),
            hex(&expected),
            hex(&output)
        ));
    }
    let stored = answer.as_ref().map_or(0..0, |(count, told)| stored(*count, told));
    let kept = |range: Range<usize>| output[range.clone()] == before[range];
    match kept(0..stored.start) && kept(stored.end..room + GUARD) {
        true => Ok(answer),
        false => Err(format!("bytes changed outside {stored:?}, into {room}, {}", what())),
    }
}

/// The same for a call that writes from `at` on, answers how many bytes, and tells nothing.
pub fn both_write(
    room: usize,
    at: usize,
    plain: impl FnOnce(&mut [u8]) -> Result<usize, u8>,
    library: impl FnOnce(&mut [u8]) -> Result<usize, u8>,
    what: impl Fn() -> String,
) -> Result<Result<usize, u8>, Disagreement> {
    let plain = |out: &mut [u8]| plain(out).map(|count| (count, []));
    let answer = both(room, plain, |out, _| library(out), |count, []| at..at + count, what)?;
    Ok(answer.map(|(count, [])| count))
}

/// Rooms for what takes `exact` bytes: exact, one too short, larger; for a refusal none and a lot.
pub fn rooms(exact: Result<usize, u8>) -> impl Iterator<Item = usize> {
    let rooms = match exact {
        Ok(exact) => [Some(exact), exact.checked_sub(1), Some(exact + 1 + exact % 40)],
        Err(_) => [Some(0), Some(100), None],
    };
    rooms.into_iter().flatten()
}

/// With fewer numbers lent than the N that are told, the call is refused with this number, and
/// nothing is stored.
pub fn too_few_numbers<const N: usize>(
    bytes: &[u8],
    number: u8,
    library: impl Fn(&mut [u8], &mut [u64]) -> Result<usize, u8>,
) -> Result<(), Disagreement> {
    for lent in 0..N {
        let (mut out, mut told) = ([7; 9], [FILL; N]);
        let answer = library(&mut out, &mut told[..lent]);
        if answer != Err(number) || out != [7; 9] || told != [FILL; N] {
            return Err(format!(
                "{lent} of {N} numbers lent, not {number}: {answer:?} {out:?} {told:?}, {}",
                hex(bytes)
            ));
        }
    }
    Ok(())
}
