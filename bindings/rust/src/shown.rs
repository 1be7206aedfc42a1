//! Showing what is put together of several words, with the width that was asked for.

use core::fmt::{self, Write};
use core::str;

/// The longest meaning of a refusal fits, with its number.
const ROOM: usize = 128;

/// Words as they are put together; there is no allocator.
struct Line {
    bytes: [u8; ROOM],
    len: usize,
}

impl Line {
    fn of(words: fmt::Arguments<'_>) -> Result<Self, fmt::Error> {
        let mut line = Self { bytes: [0; ROOM], len: 0 };
        line.write_fmt(words)?;
        Ok(line)
    }

    fn text(&self) -> Result<&str, fmt::Error> {
        str::from_utf8(&self.bytes[..self.len]).map_err(|_| fmt::Error)
    }
}

impl Write for Line {
    fn write_str(&mut self, words: &str) -> fmt::Result {
        let free = self.bytes[self.len..].get_mut(..words.len()).ok_or(fmt::Error)?;
        free.copy_from_slice(words.as_bytes());
        self.len += words.len();
        Ok(())
    }
}

/// Shows them as one text: `write!` would give the width to none of them.
pub fn pad(f: &mut fmt::Formatter<'_>, words: fmt::Arguments<'_>) -> fmt::Result {
    f.pad(Line::of(words)?.text()?)
}

/// Shows digits as a number is shown, with its sign, and whole whatever the precision.
pub fn pad_number(
    f: &mut fmt::Formatter<'_>,
    non_negative: bool,
    digits: fmt::Arguments<'_>,
) -> fmt::Result {
    f.pad_integral(non_negative, "", Line::of(digits)?.text()?)
}
