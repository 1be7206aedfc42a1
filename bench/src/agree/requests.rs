//! BaseX requests: read and written again, and written.

use super::told::{both, both_write, rooms, too_few_numbers, Answer};
use super::{hex, Disagreement, Tally};
use crate::called::basex as called;
use crate::library::basex::{self as library, REQUEST};
use bench::inputs::basex::{known, requests, requests_read};
use bench::plain::refusal::{BAD_ESCAPE, MORE_NEEDED, NO_ROOM, UNKNOWN};

pub fn compare(tally: &mut Tally) -> Result<(), Disagreement> {
    for bytes in requests_read() {
        // No text is longer than its string.
        let answer = compare_reading(&bytes, bytes.len(), tally)?;
        for room in rooms(answer.map(|(_, told)| stored(&told))) {
            let _ = compare_reading(&bytes, room, tally)?;
        }
        if let Ok((count, told)) = answer {
            written_again(&bytes[..count], &told, tally)?;
        }
    }
    for asked in requests() {
        compare_writing(asked.kind, asked.texts(), tally)?;
    }
    few_numbers()
}

/// The bytes of all four texts.
fn stored(told: &[u64; REQUEST]) -> usize {
    told[1..].iter().sum::<u64>() as usize
}

fn compare_reading(
    bytes: &[u8],
    room: usize,
    tally: &mut Tally,
) -> Result<Answer<REQUEST>, Disagreement> {
    let answer = both(
        room,
        |out| {
            let mut told = [0; REQUEST];
            called::read_request(bytes, out, &mut told).map(|count| (count, told))
        },
        |out, told| library::read_request(bytes, out, told),
        |_, told| 0..stored(told),
        || format!("reading a request: {}", hex(bytes)),
    )?;
    tally.requests_read.add(answer.map(|(_, told)| told[0] as u32));
    Ok(answer)
}

/// What was read is written as the same bytes.
fn written_again(
    bytes: &[u8],
    told: &[u64; REQUEST],
    tally: &mut Tally,
) -> Result<(), Disagreement> {
    let mut out = vec![0; stored(told)];
    let _ = library::read_request(bytes, &mut out, &mut [0; REQUEST]);
    let (mut rest, mut texts) = (&out[..], [&[][..]; 4]);
    let [kind, lengths @ ..] = told;
    for (text, length) in texts.iter_mut().zip(lengths) {
        (*text, rest) = rest.split_at(*length as usize);
    }
    let mut again = vec![0; bytes.len()];
    let answer = library::write_request(&mut again, *kind as u8, texts);
    if answer != Ok(bytes.len()) || again != bytes {
        return Err(format!("{answer:?}, read and written again: {}", hex(bytes)));
    }
    compare_writing(*kind as u8, texts, tally)
}

fn compare_writing(kind: u8, texts: [&[u8]; 4], tally: &mut Tally) -> Result<(), Disagreement> {
    let most = 1 + texts.iter().map(|text| 2 * text.len() + 1).sum::<usize>();
    let mut call = |room| {
        let answer = both_write(
            room,
            0,
            |out| called::write_request(out, kind, texts),
            |out| library::write_request(out, kind, texts),
            || format!("writing a request {kind:02X}: {:?}", texts.map(hex)),
        )?;
        tally.requests_written.add(answer.map(|_| known(kind).map_or(0, |row| row.0.into())));
        Ok::<_, Disagreement>(answer)
    };
    for room in rooms(call(most)?) {
        let _ = call(room)?;
    }
    Ok(())
}

/// With too few numbers lent, 10 behind every other refusal.
fn few_numbers() -> Result<(), Disagreement> {
    let refused: [(&[u8], u8); 6] = [
        (b"", MORE_NEEDED),
        (b"\x01", UNKNOWN),
        (b"\x00a", MORE_NEEDED),
        (b"\x00\xFFa", BAD_ESCAPE),
        (b"\x00a\0", NO_ROOM),
        (b"\x00\0", NO_ROOM),
    ];
    for (bytes, number) in refused {
        let read = |out: &mut [u8], told: &mut [u64]| library::read_request(bytes, out, told);
        too_few_numbers::<REQUEST>(bytes, number, read)?;
    }
    Ok(())
}
