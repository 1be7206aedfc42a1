//! Cutting 1 MB into messages that stand one behind the other, and joining them back. Beside the
//! plain code stands a copy of the text in one piece, to the same place.

use super::rounds::{self, copy};
use super::table::Row;
use crate::called;
use crate::library::parts::{self as library, ASSEMBLY, TOLD};
use bench::inputs::big_text;
use bench::plain::{self, Gathered, Gathering, Side, What, BODY_MAX, HEAD};
use std::cell::RefCell;
use std::hint::black_box;

pub fn rows() -> Vec<Row> {
    let works = [
        ("a statement, 1,000,000 bytes", Work::new(What::Statement)),
        ("an item up to 3.0, 1,000,000 bytes", Work::new(What::Item)),
        ("an item of 4.0, 1,000,000 bytes", Work::new(What::TypedItem)),
    ];
    let cutting = works.iter().map(|(name, work)| work.cutting(format!("cutting {name}")));
    let joining = works.iter().map(|(name, work)| work.joining(format!("joining {name}")));
    cutting.chain(joining).collect()
}

/// Where the whole is handed over: its length, and a number of its format or class and type.
type Whole = (u64, u64);

/// A statement or an item that is cut and joined.
struct Work {
    what: What,
    text: Vec<u8>,
    /// All messages of the cut, an item's end included.
    messages: Vec<u8>,
}

const MARKS: [u8; 2] = [1, 10];

impl Work {
    fn new(what: What) -> Self {
        let text = big_text();
        let mut messages = vec![0; text.len() + text.len() / 100 + 2 * (HEAD + BODY_MAX)];
        let mut end = cut(what, &text, &mut messages, plain_part) as usize;
        if what != What::Statement {
            end += plain::write_empty(&mut messages[end..], 370).expect("there is room");
        }
        messages.truncate(end);
        Self { what, text, messages }
    }

    fn cutting(&self, name: String) -> Row {
        let Self { what, text, .. } = self;
        // One output for all, so that they do not differ in how it is aligned.
        let out = RefCell::new(vec![0; self.messages.len() + HEAD + BODY_MAX]);
        let library = || cut(*what, text, &mut out.borrow_mut(), library_part);
        let called = || cut(*what, text, &mut out.borrow_mut(), called_part);
        let inlined = || cut(*what, text, &mut out.borrow_mut(), plain_part);
        let ratios = [rounds::ratio(called, library), rounds::ratio(inlined, library)];
        let copied = rounds::copy_ratio(|| copy(text, &mut out.borrow_mut()), library);
        Row::ratios(name, ratios, Some(copied))
    }

    fn joining(&self, name: String) -> Row {
        let buffer = RefCell::new(vec![0; self.text.len()]);
        let library = || self.library(&mut buffer.borrow_mut());
        library();
        assert_eq!(*buffer.borrow(), self.text, "what was cut is joined");
        let called = || self.called(&mut buffer.borrow_mut());
        let inlined = || self.inlined(&mut buffer.borrow_mut());
        let ratios = [rounds::ratio(called, library), rounds::ratio(inlined, library)];
        let copied = rounds::copy_ratio(|| copy(&self.text, &mut buffer.borrow_mut()), library);
        Row::ratios(name, ratios, Some(copied))
    }

    fn side(&self) -> Side {
        match self.what {
            What::Statement => Side::Client,
            _ => Side::Server,
        }
    }

    fn library(&self, buffer: &mut [u8]) -> u64 {
        let (mut assembly, mut told) = ([0; ASSEMBLY], [0; TOLD]);
        // The record is long enough.
        let _ = library::open(&mut assembly, self.what as u64);
        let side = self.side() as u8;
        self.each(|bytes| {
            let count = library::join(&mut assembly, black_box(buffer), side, bytes, &mut told)?;
            let [_, length, a, b] = told;
            Ok((count, (length, a + b)))
        })
    }

    fn called(&self, buffer: &mut [u8]) -> u64 {
        let (mut gathering, mut told) = (Gathering::CLOSED, [0; TOLD]);
        called::parts::open(&mut gathering, self.what);
        let side = self.side();
        self.each(|bytes| {
            let count =
                called::parts::join(&mut gathering, black_box(buffer), side, bytes, &mut told)?;
            let [_, length, a, b] = told;
            Ok((count, (length, a + b)))
        })
    }

    fn inlined(&self, buffer: &mut [u8]) -> u64 {
        let mut gathering = Gathering::open(self.what);
        let side = self.side();
        self.each(|bytes| {
            let message = plain::read(side, bytes)?;
            let whole = match gathering.join(black_box(buffer), &message)? {
                Gathered::Part => (0, 0),
                Gathered::Statement { len, format } => (len as u64, format.into()),
                Gathered::Item { len } => (len as u64, 0),
                Gathered::TypedItem { len, class, kind } => {
                    (len as u64, u64::from(class) + u64::from(kind))
                }
            };
            Ok((message.count, whole))
        })
    }

    /// Offers message after message; a sum over what is read and handed over.
    #[inline(always)]
    fn each(&self, mut join: impl FnMut(&[u8]) -> Result<(usize, Whole), u8>) -> u64 {
        let (mut rest, mut sum) = (&self.messages[..], 0);
        while !rest.is_empty() {
            let Ok((count, (length, label))) = join(black_box(rest)) else { return 0 };
            sum += count as u64 + length + label;
            rest = &rest[count..];
        }
        sum
    }
}

/// Part after part to where the one before it ends; the answer is the bytes written.
#[inline(always)]
fn cut(
    what: What,
    text: &[u8],
    out: &mut [u8],
    write: impl Fn(What, &[u8], usize, &mut [u8]) -> Result<usize, u8>,
) -> u64 {
    let (mut at, mut k) = (0, 0);
    while let Ok(count) = write(what, black_box(text), k, black_box(&mut out[at..])) {
        at += count;
        k += 1;
    }
    at as u64
}

#[inline(always)]
fn library_part(what: What, text: &[u8], k: usize, out: &mut [u8]) -> Result<usize, u8> {
    match what {
        What::Statement => library::write_statement_part(out, 1, text, k),
        What::TypedItem => library::write_typed_item_part(out, MARKS, None, text, k),
        _ => library::write_item_part(out, text, k),
    }
}

#[inline(always)]
fn called_part(what: What, text: &[u8], k: usize, out: &mut [u8]) -> Result<usize, u8> {
    match what {
        What::Statement => called::parts::write_statement_part(out, 1, text, k),
        What::TypedItem => called::parts::write_typed_item_part(out, MARKS, None, text, k),
        _ => called::parts::write_item_part(out, text, k),
    }
}

#[inline(always)]
fn plain_part(what: What, text: &[u8], k: usize, out: &mut [u8]) -> Result<usize, u8> {
    match what {
        What::Statement => plain::write_statement_part(out, 1, text, k),
        What::TypedItem => plain::write_typed_item_part(out, MARKS, None, text, k),
        _ => plain::write_item_part(out, text, k),
    }
}
