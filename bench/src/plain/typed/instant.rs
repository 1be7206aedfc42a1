//! Instants: a date and time of XML Schema with its zone.

use super::super::refusal::{NOT_OF_FORM, OUT_OF_RANGE};
use super::{digits, Instant};

pub fn read(text: &[u8]) -> Result<Instant, u8> {
    let (minus, rest) = match text {
        [b'-', rest @ ..] => (true, rest),
        _ => (false, text),
    };
    let (year, rest) = digits(rest);
    if year.len() < 4 || year.len() > 4 && year[0] == b'0' {
        return Err(NOT_OF_FORM);
    }
    let &[b'-', a, b, b'-', c, d, b'T', e, f, b':', g, h, b':', i, j, ref rest @ ..] = rest else {
        return Err(NOT_OF_FORM);
    };
    let (month, day) = (pair(a, b)?, pair(c, d)?);
    let (hour, minute, second) = (pair(e, f)?, pair(g, h)?, pair(i, j)?);
    let (fraction, rest) = fraction(rest)?;
    let zone = zone(rest)?;
    // The year, or one that is a multiple of 10,000, and so of 400, away from it.
    let cycle = year.iter().fold(0, |n: u32, byte| (n * 10 + u32::from(byte - b'0')) % 10_000);
    if day < 1 || day > days_of(cycle, month) || minute > 59 || second > 59 || hour > 24 {
        return Err(NOT_OF_FORM);
    }
    if hour == 24 && (minute > 0 || second > 0 || fraction.iter().any(|&byte| byte != b'0')) {
        return Err(NOT_OF_FORM);
    }
    if minus || year.len() > 4 || cycle == 0 || fraction.len() > 9 {
        return Err(OUT_OF_RANGE);
    }
    let zone = zone.ok_or(OUT_OF_RANGE)?;
    let seconds = i64::from(hour * 3_600 + minute * 60 + second) - zone * 60;
    let nanos = fraction.iter().fold(0, |n, byte| n * 10 + u32::from(byte - b'0'));
    Ok(Instant {
        seconds: days(cycle.into(), month.into(), day.into()) * 86_400 + seconds,
        nanos: nanos * 10u32.pow(9 - fraction.len() as u32),
    })
}

fn pair(a: u8, b: u8) -> Result<u32, u8> {
    let (a, b) = (a.wrapping_sub(b'0'), b.wrapping_sub(b'0'));
    match a <= 9 && b <= 9 {
        true => Ok(u32::from(a * 10 + b)),
        false => Err(NOT_OF_FORM),
    }
}

/// The digits behind a point, if there is one, and the rest.
fn fraction(text: &[u8]) -> Result<(&[u8], &[u8]), u8> {
    let [b'.', rest @ ..] = text else { return Ok((&[], text)) };
    match digits(rest) {
        ([], _) => Err(NOT_OF_FORM),
        parts => Ok(parts),
    }
}

/// Minutes ahead of UTC; none where no zone stands.
fn zone(text: &[u8]) -> Result<Option<i64>, u8> {
    match *text {
        [] => Ok(None),
        [b'Z'] => Ok(Some(0)),
        [sign @ (b'+' | b'-'), a, b, b':', c, d] => {
            let (hours, minutes) = (pair(a, b)?, pair(c, d)?);
            let all = i64::from(hours * 60 + minutes);
            match minutes <= 59 && all <= 14 * 60 {
                true => Ok(Some(if sign == b'+' { all } else { -all })),
                false => Err(NOT_OF_FORM),
            }
        }
        _ => Err(NOT_OF_FORM),
    }
}

fn days_of(year: u32, month: u32) -> u32 {
    let leap = matches!((year % 4, year % 100, year % 400), (0, 1.., _) | (0, 0, 0));
    match month {
        4 | 6 | 9 | 11 => 30,
        2 if leap => 29,
        2 => 28,
        1..=12 => 31,
        _ => 0,
    }
}

/// Days from 1970-01-01, by years that start in March.
fn days(year: i64, month: i64, day: i64) -> i64 {
    let (year, month) = if month <= 2 { (year - 1, month + 9) } else { (year, month - 3) };
    let before = year * 365 + year / 4 - year / 100 + year / 400;
    before + (153 * month + 2) / 5 + day - 719_469
}
