//! The library and the plain code, called and inlined, in one form each.

use crate::called::basex as called;
use crate::library::basex::{self as library, ITEM, RESPONSE};
use bench::plain::basex as plain;

pub trait Way {
    /// A sum over the answer and what is told.
    fn read(kind: u8, bytes: &[u8], out: &mut [u8]) -> Result<u64, u8>;

    /// The bytes of an item and what is told of it, or 0 for the end of them.
    fn item(kind: u8, bytes: &[u8], at: usize) -> Result<(usize, [u64; ITEM]), u8>;

    /// The bytes written.
    fn write_item(
        out: &mut [u8],
        at: usize,
        kind: u8,
        id: u8,
        uri: &[u8],
        text: &[u8],
    ) -> Result<usize, u8>;

    fn write_end(
        out: &mut [u8],
        at: usize,
        kind: u8,
        texts: [&[u8]; 2],
        status: u8,
        error: &[u8],
    ) -> Result<usize, u8>;
}

pub struct Library;
pub struct Called;
pub struct Inlined;

#[rustfmt::skip]
impl Way for Library {
    #[inline(always)]
    fn read(kind: u8, bytes: &[u8], out: &mut [u8]) -> Result<u64, u8> {
        let mut told = [0; RESPONSE];
        let count = library::read_response(kind, bytes, out, &mut told)?;
        Ok(count as u64 + told.iter().sum::<u64>())
    }

    #[inline(always)]
    fn item(kind: u8, bytes: &[u8], at: usize) -> Result<(usize, [u64; ITEM]), u8> {
        let mut told = [0; ITEM];
        let count = library::item(kind, bytes, at, &mut told)?;
        Ok((count, told))
    }

    #[inline(always)]
    fn write_item(
        out: &mut [u8], at: usize, kind: u8, id: u8, uri: &[u8], text: &[u8],
    ) -> Result<usize, u8> {
        library::write_item(out, at, kind, id, uri, text)
    }

    #[inline(always)]
    fn write_end(
        out: &mut [u8], at: usize, kind: u8, texts: [&[u8]; 2], status: u8, error: &[u8],
    ) -> Result<usize, u8> {
        library::write_end(out, at, kind, texts, status, error)
    }
}

#[rustfmt::skip]
impl Way for Called {
    #[inline(always)]
    fn read(kind: u8, bytes: &[u8], out: &mut [u8]) -> Result<u64, u8> {
        let mut told = [0; RESPONSE];
        let count = called::read_response(kind, bytes, out, &mut told)?;
        Ok(count as u64 + told.iter().sum::<u64>())
    }

    #[inline(always)]
    fn item(kind: u8, bytes: &[u8], at: usize) -> Result<(usize, [u64; ITEM]), u8> {
        let mut told = [0; ITEM];
        let count = called::item(kind, bytes, at, &mut told)?;
        Ok((count, told))
    }

    #[inline(always)]
    fn write_item(
        out: &mut [u8], at: usize, kind: u8, id: u8, uri: &[u8], text: &[u8],
    ) -> Result<usize, u8> {
        called::write_item(out, at, kind, id, uri, text)
    }

    #[inline(always)]
    fn write_end(
        out: &mut [u8], at: usize, kind: u8, texts: [&[u8]; 2], status: u8, error: &[u8],
    ) -> Result<usize, u8> {
        called::write_end(out, at, kind, texts, status, error)
    }
}

#[rustfmt::skip]
impl Way for Inlined {
    #[inline(always)]
    fn read(kind: u8, bytes: &[u8], out: &mut [u8]) -> Result<u64, u8> {
        let read = plain::read_response(kind, bytes, out)?;
        let texts: usize = read.texts.iter().map(|text| text.len()).sum();
        let listed = read.items + read.listed.len();
        Ok((texts + listed + read.error.len() + read.read) as u64 + u64::from(read.status))
    }

    #[inline(always)]
    fn item(kind: u8, bytes: &[u8], at: usize) -> Result<(usize, [u64; ITEM]), u8> {
        let told = |plain::Item { id, uri, text, next }| {
            (next - at, [id.into(), uri.unwrap_or(0) as u64, text as u64])
        };
        Ok(plain::item(kind, bytes, at)?.map_or((0, [0; ITEM]), told))
    }

    #[inline(always)]
    fn write_item(
        out: &mut [u8], at: usize, kind: u8, id: u8, uri: &[u8], text: &[u8],
    ) -> Result<usize, u8> {
        plain::write_item(out, at, kind, id, uri, text)
    }

    #[inline(always)]
    fn write_end(
        out: &mut [u8], at: usize, kind: u8, texts: [&[u8]; 2], status: u8, error: &[u8],
    ) -> Result<usize, u8> {
        plain::write_end(out, at, kind, texts, status, error)
    }
}
