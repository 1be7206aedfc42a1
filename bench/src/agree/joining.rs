//! Joining: answer, what is told, the record, and every byte of the buffer and behind it.

use super::reading::FILL;
use super::writing::pattern;
use super::{hex, Disagreement, Tally};
use crate::library::parts::{self as library, kept, told, ASSEMBLY, TOLD};
use bench::inputs::{gatherings, Input};
use bench::plain::{read, Gathered, Gathering, What};

/// Numbers and bytes behind what is lent, which nobody may touch.
const GUARD: usize = 2;
const BUFFER_GUARD: usize = 64;

pub fn compare(tally: &mut Tally) -> Result<(), Disagreement> {
    bad_openings()?;
    bad_calls()?;
    let mut both = Both::fresh();
    for gathering in gatherings() {
        both.open(gathering.what, gathering.room)?;
        tally.gatherings += 1;
        for offer in &gathering.offers {
            both.offer(offer, tally)?;
        }
    }
    Ok(())
}

/// One gathering, as each of the two keeps it; opening it anew drops what it was.
struct Both {
    plain: Gathering,
    library: [u64; ASSEMBLY + GUARD],
    room: usize,
    /// A buffer for each.
    buffers: [Vec<u8>; 2],
}

impl Both {
    fn fresh() -> Self {
        let buffers = [Vec::new(), Vec::new()];
        Self { plain: Gathering::CLOSED, library: [FILL; ASSEMBLY + GUARD], room: 0, buffers }
    }

    fn open(&mut self, what: What, room: usize) -> Result<(), Disagreement> {
        self.plain = Gathering::open(what);
        self.room = room;
        for buffer in &mut self.buffers {
            buffer.clear();
            buffer.extend((0..room + BUFFER_GUARD).map(pattern));
        }
        if what == What::Nothing {
            self.library = expected(&self.plain);
            return Ok(());
        }
        let answer = library::open(&mut self.library, what as u64);
        if answer != Ok(0) || self.library != expected(&self.plain) {
            return Err(format!("opening {what:?}: {answer:?} {:?}", self.library));
        }
        Ok(())
    }

    fn offer(&mut self, input: &Input, tally: &mut Tally) -> Result<(), Disagreement> {
        let before = (self.plain, self.library);
        let [plain_buffer, library_buffer] = &mut self.buffers;
        let plain = join(&mut self.plain, &mut plain_buffer[..self.room], input);
        let mut lent = [FILL; TOLD + GUARD];
        let library = library::join(
            &mut self.library,
            &mut library_buffer[..self.room],
            input.side as u8,
            &input.bytes,
            &mut lent,
        );
        let mut telling = [FILL; TOLD + GUARD];
        if let Ok((_, gathered)) = plain {
            telling[..TOLD].copy_from_slice(&told(gathered));
        }
        let answer = plain.map(|(count, _)| count);
        let kept = self.library == expected(&self.plain);
        if library != answer || lent != telling || !kept || plain_buffer != library_buffer {
            return Err(format!(
                "joining from the {:?} to {before:?}, room {}\n\
                 plain:   {answer:?} {telling:?} {:?}\nlibrary: {library:?} {lent:?} {:?}\n\
                 buffers {}\ninput: {}",
                input.side,
                self.room,
                self.plain,
                self.library,
                if plain_buffer == library_buffer { "alike" } else { "not alike" },
                hex(&input.bytes)
            ));
        }
        tally.joining.add(plain.map(|(_, gathered)| told(gathered)[0] as u32));
        Ok(())
    }
}

/// The plain way: the message is read, then joined.
fn join(
    gathering: &mut Gathering,
    buffer: &mut [u8],
    input: &Input,
) -> Result<(usize, Gathered), u8> {
    let message = read(input.side, &input.bytes)?;
    Ok((message.count, gathering.join(buffer, &message)?))
}

/// The library's numbers for a gathering, and the untouched ones behind.
fn expected(gathering: &Gathering) -> [u64; ASSEMBLY + GUARD] {
    let mut numbers = [FILL; ASSEMBLY + GUARD];
    numbers[..ASSEMBLY].copy_from_slice(&kept(gathering));
    numbers
}

/// Too few numbers are 10; what is none of the three, 8.
fn bad_openings() -> Result<(), Disagreement> {
    let short = (0..ASSEMBLY).map(|room| (room, 1, 10));
    let others = [0, 4, 5, 1 << 32, u64::MAX].map(|what| (ASSEMBLY, what, 8));
    for (room, what, refusal) in short.chain(others) {
        let mut record = [FILL; ASSEMBLY];
        let answer = library::open(&mut record[..room], what);
        if answer != Err(refusal) || record != [FILL; ASSEMBLY] {
            return Err(format!("opening {what} in {room} numbers: {answer:?} {record:?}"));
        }
    }
    Ok(())
}

/// Too few numbers are 10, a side that is none is 8, and so are numbers that no record has; a
/// record that holds more than the buffer gets 12.
fn bad_calls() -> Result<(), Disagreement> {
    let part = [0, 0, 1, 104, 0, 0, 0, 6, 0, 0, 0, 0, 1, 120];
    let sound = [2, 1, 3, 0, 0, 0, 0];
    let mut calls = vec![(sound, ASSEMBLY, TOLD - 1, 2, 10), (sound, ASSEMBLY - 1, TOLD, 2, 10)];
    calls.extend([0, 3, 255].map(|side| (sound, ASSEMBLY, TOLD, side, 8)));
    let others = [(0, 4), (1, 2), (3, 2), (4, 256), (5, 256), (6, 256)];
    for (at, least) in others {
        for number in [least, least + 1, 1 << 32, u64::MAX] {
            let mut record = sound;
            record[at] = number;
            calls.push((record, ASSEMBLY, TOLD, 2, 8));
        }
    }
    for (record, room, telling, side, refusal) in calls {
        let (mut lent, mut buffer, mut told) = (record, [0xA5; 8], [FILL; TOLD]);
        let answer =
            library::join(&mut lent[..room], &mut buffer, side, &part, &mut told[..telling]);
        if answer != Err(refusal) || lent != record || buffer != [0xA5; 8] || told != [FILL; TOLD] {
            return Err(format!("joining to {record:?}, side {side}: {answer:?} {lent:?}"));
        }
    }
    for held in [8, 9, u64::MAX] {
        let (mut lent, mut buffer, mut told) = ([2, 1, held, 0, 0, 0, 0], [0xA5; 8], [FILL; TOLD]);
        let answer = library::join(&mut lent, &mut buffer, 2, &part, &mut told);
        let spoilt = [2, 1, held, 1, 0, 0, 0];
        if answer != Err(12) || lent != spoilt || buffer != [0xA5; 8] || told != [FILL; TOLD] {
            return Err(format!("joining to {held} bytes held: {answer:?} {lent:?}"));
        }
    }
    Ok(())
}
