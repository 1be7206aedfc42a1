//! BaseX: here strings, byte by byte and in runs.

mod requests;
mod responses;

pub use requests::{read_request, write_request};
pub use responses::{item, read_response, write_end, write_item};

use bench::plain::basex::{bytes, runs, Place};

#[inline(never)]
pub fn write_by_bytes(out: &mut [u8], at: usize, text: &[u8]) -> Result<usize, u8> {
    bytes::write_string(out, at, text)
}

#[inline(never)]
pub fn write_in_runs(out: &mut [u8], at: usize, text: &[u8]) -> Result<usize, u8> {
    runs::write_string(out, at, text)
}

#[inline(never)]
pub fn decode_by_bytes(from: &[u8], at: usize, out: &mut [u8], to: usize) -> Result<Place, u8> {
    bytes::decode(from, at, out, to)
}

#[inline(never)]
pub fn decode_in_runs(from: &[u8], at: usize, out: &mut [u8], to: usize) -> Result<Place, u8> {
    runs::decode(from, at, out, to)
}

#[inline(never)]
pub fn judge_by_bytes(from: &[u8], at: usize) -> Result<Place, u8> {
    bytes::judge(from, at)
}

#[inline(never)]
pub fn judge_in_runs(from: &[u8], at: usize) -> Result<Place, u8> {
    runs::judge(from, at)
}

#[inline(never)]
pub fn measure_by_bytes(text: &[u8]) -> usize {
    bytes::string_len(text)
}

#[inline(never)]
pub fn measure_in_runs(text: &[u8]) -> usize {
    runs::string_len(text)
}
