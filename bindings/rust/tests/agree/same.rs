//! Whether a message is told alike: fields, and texts at the same place of the same bytes.

use bench::plain::{self, Pairs};
use keddorimp::sedna::{Body, Message, Options, Side};
use keddorimp::Refusal;
use std::ptr;

pub fn side(side: plain::Side) -> Side {
    match side {
        plain::Side::Client => Side::Client,
        plain::Side::Server => Side::Server,
    }
}

/// Answer, message and count.
pub fn same(ours: &Result<(Message, usize), Refusal>, plain: &Result<plain::Message, u8>) -> bool {
    match (ours, plain) {
        (Err(refusal), Err(number)) => refusal.number() == *number,
        (Ok((ours, count)), Ok(plain)) => {
            ours.instruction.0 == plain.instruction
                && *count == plain.count
                && same_body(&ours.body, &plain.body)
        }
        _ => false,
    }
}

fn same_body(ours: &Body, plain: &plain::Body) -> bool {
    use plain::Body as Plain;
    match (*ours, *plain) {
        (Body::Empty, Plain::Empty) => true,
        (
            Body::Session { major, minor, user, database },
            Plain::Session { major: a, minor: b, user: u, database: d },
        ) => (major, minor) == (a, b) && ptr::eq(user, u) && ptr::eq(database, d),
        (Body::Text(text), Plain::Text(t)) => ptr::eq(text, t),
        (Body::Statement { format, text }, Plain::Statement { format: f, text: t }) => {
            format == f && ptr::eq(text, t)
        }
        (Body::Coded { code, text }, Plain::Coded { code: c, text: t }) => {
            code == c && ptr::eq(text, t)
        }
        (Body::Options(options), Plain::Options(pairs)) => same_options(&options, &pairs),
        (
            Body::Item { class, kind, url, part },
            Plain::Item { class: c, kind: k, url: u, part: p },
        ) => {
            let urls = url.map(<[u8]>::as_ptr_range) == u.map(<[u8]>::as_ptr_range);
            (class, kind) == (c, k) && urls && ptr::eq(part, p)
        }
        _ => false,
    }
}

/// One after another, by number, and none behind the last.
fn same_options(options: &Options, pairs: &Pairs) -> bool {
    let count = pairs.count();
    let mut settings = options.iter();
    let alike = pairs.iter().enumerate().all(|(k, (id, value))| {
        let (next, kth) = (settings.next(), options.get(k));
        let right = |s: keddorimp::sedna::Setting| s.id == id && ptr::eq(s.value, value);
        settings.len() == count - k - 1 && next.is_some_and(right) && kth.is_some_and(right)
    });
    let behind = [count, count + 1, usize::MAX].map(|k| options.get(k));
    alike
        && (options.len(), options.is_empty()) == (count, count == 0)
        && settings.next().is_none()
        && behind.iter().all(Option::is_none)
}
