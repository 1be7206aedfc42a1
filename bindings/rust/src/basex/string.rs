//! Strings: FF before each 00 and FF, then 00.

use crate::raw::basex as raw;
use crate::refusal::Refusal;

/// How many bytes the text takes as a string.
///
/// ```
/// use keddorimp::basex::string_len;
///
/// assert_eq!(string_len(b""), 1);
/// assert_eq!(string_len(b"a\0\xFF"), 6);
/// ```
pub fn string_len(text: &[u8]) -> usize {
    raw::string_len(text)
}

/// Writes the text as a string into the front of the output; the answer is what was written.
///
/// Refused with 10 for an output that is too short.
///
/// ```
/// use keddorimp::basex::write_string;
/// use keddorimp::Refusal;
///
/// let mut out = [0; 8];
/// assert_eq!(write_string(&mut out, b"a\0\xFF")?, b"a\xFF\0\xFF\xFF\0");
/// assert_eq!(write_string(&mut out[..5], b"a\0\xFF"), Err(Refusal::NoRoom));
/// # Ok::<(), Refusal>(())
/// ```
pub fn write_string<'o>(out: &'o mut [u8], text: &[u8]) -> Result<&'o [u8], Refusal> {
    let count = raw::write_string(out, 0, text)?;
    Ok(&out[..count])
}

/// Judges the string at the front of the bytes: how long its text is, and how many bytes were read.
///
/// Refused with 1 and 13.
///
/// ```
/// use keddorimp::basex::measure_string;
/// use keddorimp::Refusal;
///
/// assert_eq!(measure_string(b"a\xFF\0\xFF\xFF\0 and more"), Ok((3, 6)));
/// assert_eq!(measure_string(b"no end"), Err(Refusal::MoreBytes));
/// ```
pub fn measure_string(bytes: &[u8]) -> Result<(usize, usize), Refusal> {
    let (count, [len]) = raw::string_at(bytes, 0)?;
    Ok((len, count))
}

/// Reads the string at the front of the bytes into the front of the output: the text, and how many
/// bytes were read.
///
/// Refused with 1 and 13, and with 10 for an output that is too short.
///
/// ```
/// use keddorimp::basex::read_string;
/// use keddorimp::Refusal;
///
/// let mut out = [0; 8];
/// assert_eq!(read_string(b"a\xFF\0\xFF\xFF\0 and more", &mut out)?, (&b"a\0\xFF"[..], 6));
/// // 13 comes as soon as the pair is there, with or without an end.
/// assert_eq!(read_string(b"\xFFA", &mut out), Err(Refusal::BadEscape));
/// # Ok::<(), Refusal>(())
/// ```
pub fn read_string<'o>(bytes: &[u8], out: &'o mut [u8]) -> Result<(&'o [u8], usize), Refusal> {
    let (count, [len]) = raw::decode(bytes, 0, out, 0)?;
    Ok((&out[..len], count))
}
