//! Typed values of items, and the order of instants.

use crate::raw::value as raw;
use crate::refusal::Refusal;
use crate::shown::pad_number;
use core::cmp::Ordering;
use core::fmt;

/// What an item means by its type.
#[derive(Clone, Copy, Debug, PartialEq)]
pub enum Value {
    /// A whole number: types 24 and 50 to 61, each with its own range, in 64 bits.
    Whole(i64),
    /// An instant: type 10, dateTime.
    At(Instant),
    /// A yes or no: type 25, boolean.
    Truth(bool),
    /// A double: type 22. Equal as doubles are, so 0 and negative zero are.
    Double(f64),
}

impl fmt::Display for Value {
    fn fmt(&self, f: &mut fmt::Formatter<'_>) -> fmt::Result {
        match self {
            Self::Whole(number) => number.fmt(f),
            Self::At(instant) => instant.fmt(f),
            Self::Truth(yes) => yes.fmt(f),
            Self::Double(number) => number.fmt(f),
        }
    }
}

/// A point in time: seconds from 1970-01-01T00:00:00Z, and up to 999,999,999 nanoseconds on top,
/// before 1970 too.
///
/// Instants are ordered by when they are, however they were written. The library compares them.
///
/// ```
/// use keddorimp::sedna::{value, Instant, Value};
///
/// // Nine o'clock by a clock two hours ahead is before half past eight UTC.
/// let expiry = value(1, 10, b"2024-05-01T09:00:00+02:00")?;
/// let now = value(1, 10, b"2024-05-01T08:30:00Z")?;
/// let (Value::At(expiry), Value::At(now)) = (expiry, now) else { panic!("no instants") };
/// assert!(expiry < now);
///
/// // The system's clock is one too.
/// let since = std::time::UNIX_EPOCH.elapsed().expect("it is later than 1970");
/// let now = Instant::new(since.as_secs() as i64, since.subsec_nanos());
/// let now = now.expect("less than a second of nanoseconds");
/// assert!(expiry < now);
/// # Ok::<(), keddorimp::Refusal>(())
/// ```
///
/// It is shown as seconds with nine digits behind the point, a decimal number, so that half a
/// second before 1970, which is -1 s and 500,000,000 ns, is `-0.500000000`. Width, sign and zeros
/// are a number's; a precision takes no digit away.
///
/// ```
/// use keddorimp::sedna::Instant;
///
/// let shown = |seconds, nanoseconds| Instant::new(seconds, nanoseconds).unwrap().to_string();
/// assert_eq!(shown(1_714_546_800, 0), "1714546800.000000000");
/// assert_eq!(shown(-1, 500_000_000), "-0.500000000");
/// assert_eq!(format!("{:+013.3}", Instant::new(1, 0).unwrap()), "+01.000000000");
/// ```
#[derive(Clone, Copy, Debug, PartialEq, Eq, Hash)]
pub struct Instant {
    seconds: i64,
    nanoseconds: u32,
}

impl Instant {
    /// So many seconds from 1970-01-01T00:00:00Z and nanoseconds on top; none where those are above
    /// 999,999,999.
    pub const fn new(seconds: i64, nanoseconds: u32) -> Option<Self> {
        if nanoseconds < 1_000_000_000 {
            Some(Self { seconds, nanoseconds })
        } else {
            None
        }
    }

    /// The whole seconds from 1970-01-01T00:00:00Z to it, rounded down: below 0 before 1970.
    pub const fn seconds(self) -> i64 {
        self.seconds
    }

    /// The nanoseconds from that second to it.
    pub const fn nanoseconds(self) -> u32 {
        self.nanoseconds
    }
}

impl Ord for Instant {
    fn cmp(&self, other: &Self) -> Ordering {
        let pair = |instant: &Self| (instant.seconds, instant.nanoseconds);
        raw::compare(pair(self), pair(other)).cmp(&0)
    }
}

impl PartialOrd for Instant {
    fn partial_cmp(&self, other: &Self) -> Option<Ordering> {
        Some(self.cmp(other))
    }
}

impl fmt::Display for Instant {
    fn fmt(&self, f: &mut fmt::Formatter<'_>) -> fmt::Result {
        let Self { seconds, nanoseconds } = *self;
        let (whole, part) = if seconds < 0 && nanoseconds > 0 {
            // Counted from 0 down: the second that it stands in is begun from its other end.
            (seconds + 1, 1_000_000_000 - nanoseconds)
        } else {
            (seconds, nanoseconds)
        };
        pad_number(f, seconds >= 0, format_args!("{}.{part:09}", whole.unsigned_abs()))
    }
}

/// The value of an item of version 4.0, by its class, its type and its whole text: what
/// [`Joined::TypedItem`](super::Joined::TypedItem) has, and [`Joined::value`](super::Joined::value)
/// hands in.
///
/// Class 1 has values, in these types. A dateTime (10) has a year from 0001 to 9999, a zone, and up
/// to nine digits of a fraction; 24:00:00 is the next midnight. A double (22) is an optional sign
/// and one to fifteen digits, with or without a point. A whole number (24, 50 to 61) is an optional
/// sign and digits. A boolean (25) is `true`, `false`, `1` or `0`.
///
/// Refused with 15 for another class, another type and a text that is not of its type's form, a
/// space at either end among them; then with 16 for one that is, and whose value is out of range,
/// that has no zone or more digits than named, or that is a double with an exponent, INF or NaN.
///
/// ```
/// use keddorimp::sedna::{value, Instant, Value};
/// use keddorimp::Refusal;
///
/// assert_eq!(value(1, 24, b"-42"), Ok(Value::Whole(-42)));
/// assert_eq!(value(1, 25, b"true"), Ok(Value::Truth(true)));
/// assert_eq!(value(1, 22, b"3570.25"), Ok(Value::Double(3570.25)));
/// let instant = Instant::new(-1, 500_000_000).unwrap();
/// assert_eq!(value(1, 10, b"1969-12-31T23:59:59.5Z"), Ok(Value::At(instant)));
///
/// // A byte is at most 127; February has no thirtieth; a zone is never taken for granted.
/// assert_eq!(value(1, 55, b"128"), Err(Refusal::OutOfRange));
/// assert_eq!(value(1, 10, b"2024-02-30T00:00:00Z"), Err(Refusal::NotOfForm));
/// assert_eq!(value(1, 10, b"2024-02-29T00:00:00"), Err(Refusal::OutOfRange));
/// ```
pub fn value(class: u8, kind: u8, text: &[u8]) -> Result<Value, Refusal> {
    let (what, [first, second], real) = raw::value(class, kind, text)?;
    Ok(match what {
        1 => Value::Whole(first),
        2 => Value::At(Instant { seconds: first, nanoseconds: second as u32 }),
        3 => Value::Truth(first == 1),
        4 => Value::Double(real),
        _ => unreachable!("the archives know four kinds of value"),
    })
}
