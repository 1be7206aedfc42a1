//! Typed values: each kind and each refusal, what Rust's own library reads, every day of the
//! calendar, and the order of instants.

use keddorimp::sedna::{
    value, write_empty, Assembly, Cut, Gathering, Instant, Instruction, Joined, Side, Value,
};
use keddorimp::Refusal;
use std::collections::HashSet;

const DATE_TIME: u8 = 10;
const DOUBLE: u8 = 22;
const INTEGER: u8 = 24;
const BOOLEAN: u8 = 25;

fn at(seconds: i64, nanoseconds: u32) -> Value {
    Value::At(Instant::new(seconds, nanoseconds).unwrap())
}

/// How an atomic item of this type is refused.
fn refused(kind: u8, text: &str) -> u8 {
    value(1, kind, text.as_bytes()).expect_err(text).number()
}

#[test]
fn of_each_kind() {
    for (kind, text, expected) in [
        (INTEGER, "-9223372036854775808", Value::Whole(i64::MIN)),
        (57, "+009223372036854775807", Value::Whole(i64::MAX)),
        (BOOLEAN, "true", Value::Truth(true)),
        (BOOLEAN, "0", Value::Truth(false)),
        (DATE_TIME, "1969-12-31T23:59:59.5Z", at(-1, 500_000_000)),
        (DATE_TIME, "2024-05-01T09:00:00+02:00", at(1_714_546_800, 0)),
        (DATE_TIME, "0001-01-01T00:00:00+14:00", at(-62_135_647_200, 0)),
        (DATE_TIME, "9999-12-31T24:00:00Z", at(253_402_300_800, 0)),
        (DOUBLE, "+.5", Value::Double(0.5)),
    ] {
        assert_eq!(value(1, kind, text.as_bytes()), Ok(expected), "{text}");
    }
    let Ok(Value::Double(zero)) = value(1, DOUBLE, b"-0") else { panic!("no double") };
    assert!(zero == 0.0 && zero.is_sign_negative());
}

#[test]
fn r15_not_of_form() {
    for class in [0, 2, 8, 255] {
        assert_eq!(value(class, INTEGER, b"1"), Err(Refusal::NotOfForm));
    }
    let has_a_value = |&kind: &u8| value(1, kind, b"1") != Err(Refusal::NotOfForm);
    assert!((0..=255)
        .filter(has_a_value)
        .eq([DOUBLE, INTEGER, BOOLEAN].into_iter().chain(50..=61)));
    for (kind, text) in [
        (INTEGER, " 1"),
        (INTEGER, ""),
        (INTEGER, "-"),
        (BOOLEAN, "TRUE"),
        (DOUBLE, "."),
        (DOUBLE, "+INF"),
        (DOUBLE, "1E"),
        (DATE_TIME, "2024-05-01T09:00:00+14:01"),
        (DATE_TIME, "2024-05-01T09:00:60Z"),
        (DATE_TIME, "02024-05-01T09:00:00Z"),
        (DATE_TIME, "2024-05-01T09:00:00Z\n"),
        // 15 goes ahead of 16: year 0000 has no thirtieth of February either.
        (DATE_TIME, "0000-02-30T00:00:00"),
    ] {
        assert_eq!(refused(kind, text), 15, "{text}");
    }
}

#[test]
fn r16_out_of_range() {
    for (kind, text) in [
        (INTEGER, "9223372036854775808"),
        (50, "1"),
        (51, "0"),
        (61, "0"),
        (DOUBLE, "0000000000000001"),
        (DOUBLE, "1e5"),
        (DOUBLE, "NaN"),
        (DATE_TIME, "2024-05-01T09:00:00"),
        (DATE_TIME, "0000-02-29T00:00:00Z"),
        (DATE_TIME, "-0004-02-29T00:00:00Z"),
        (DATE_TIME, "10000-01-01T00:00:00Z"),
        (DATE_TIME, "2024-05-01T09:00:00.0000000000Z"),
    ] {
        assert_eq!(refused(kind, text), 16, "{text}");
    }
}

/// The types' ranges, by name where 64 bits end them.
#[test]
fn ranges() {
    const LEAST: i128 = i64::MIN as i128;
    const GREATEST: i128 = i64::MAX as i128;
    for (kind, least, greatest) in [
        (INTEGER, LEAST, GREATEST),
        (50, LEAST, 0),
        (51, LEAST, -1),
        (52, LEAST, GREATEST),
        (53, i32::MIN.into(), i32::MAX.into()),
        (54, i16::MIN.into(), i16::MAX.into()),
        (55, i8::MIN.into(), i8::MAX.into()),
        (56, 0, GREATEST),
        (57, 0, GREATEST),
        (58, 0, u32::MAX.into()),
        (59, 0, u16::MAX.into()),
        (60, 0, u8::MAX.into()),
        (61, 1, GREATEST),
    ] {
        for number in [least, greatest] {
            let whole = Ok(Value::Whole(number as i64));
            assert_eq!(value(1, kind, number.to_string().as_bytes()), whole);
            assert_eq!(value(1, kind, format!("{number:+040}").as_bytes()), whole);
        }
        for number in [least - 1, greatest + 1, u64::MAX.into(), i128::MIN, i128::MAX] {
            assert_eq!(refused(kind, &number.to_string()), 16, "{kind} {number}");
        }
    }
}

/// Digits with a point at each place and with none: one rounding gives the nearest double, which is
/// what Rust reads.
#[test]
fn doubles_are_the_nearest() {
    let mut digits = 1_u64;
    for _ in 0..20_000 {
        digits = digits.wrapping_mul(6_364_136_223_846_793_005).wrapping_add(1);
        let text = format!("{:015}", (digits >> 8) % 10_u64.pow(15));
        for point in 0..=15 {
            for sign in ["", "-"] {
                let text = format!("{sign}{}.{}", &text[..point], &text[point..]);
                let Ok(Value::Double(x)) = value(1, DOUBLE, text.as_bytes()) else {
                    panic!("{text}")
                };
                assert_eq!(x.to_bits(), text.parse::<f64>().unwrap().to_bits(), "{text}");
            }
        }
    }
}

/// Every day that there is from 0001 to 9999, one after another; and none between two months.
#[test]
fn every_day() {
    let mut midnight = -62_135_596_800;
    for year in 1..=9999 {
        let leap = year % 4 == 0 && (year % 100 != 0 || year % 400 == 0);
        for (month, days) in [31, 28 + i64::from(leap), 31, 30, 31, 30, 31, 31, 30, 31, 30, 31]
            .into_iter()
            .enumerate()
        {
            let text = |day| format!("{year:04}-{:02}-{day:02}T00:00:00Z", month + 1);
            for day in 1..=days {
                let read = value(1, DATE_TIME, text(day).as_bytes());
                assert_eq!(read, Ok(at(midnight, 0)), "{}", text(day));
                midnight += 86_400;
            }
            assert_eq!(
                (refused(DATE_TIME, &text(0)), refused(DATE_TIME, &text(days + 1))),
                (15, 15)
            );
        }
    }
    assert_eq!(midnight, 253_402_300_800);
}

/// Every second of a day, every zone, and a fraction of each length.
#[test]
fn every_time() {
    let read = |time: &str| value(1, DATE_TIME, format!("1970-01-02T{time}").as_bytes());
    for second in 0..86_400 {
        let (hour, minute) = (second / 3600, second / 60 % 60);
        let time = format!("{hour:02}:{minute:02}:{:02}", second % 60);
        assert_eq!(read(&(time.clone() + "Z")), Ok(at(86_400 + second, 0)), "{time}");
        assert_eq!(read(&time), Err(Refusal::OutOfRange), "{time}");
    }
    for zone in -14 * 60..=14 * 60_i64 {
        let sign = if zone < 0 { '-' } else { '+' };
        let time = format!("00:00:00{sign}{:02}:{:02}", zone.abs() / 60, zone.abs() % 60);
        assert_eq!(read(&time), Ok(at(86_400 - zone * 60, 0)), "{time}");
    }
    for digits in 1..=9 {
        let time = format!("00:00:00.{}Z", &"123456789"[..digits]);
        let nanoseconds =
            123_456_789 / 10_u32.pow(9 - digits as u32) * 10_u32.pow(9 - digits as u32);
        assert_eq!(read(&time), Ok(at(86_400, nanoseconds)), "{time}");
    }
}

#[test]
fn order_of_instants() {
    let pairs = [i64::MIN, -1, 0, 1, i64::MAX].into_iter();
    let pairs: Vec<_> = pairs.flat_map(|s| [0, 1, 999_999_999].map(|n| (s, n))).collect();
    let instant = |&(seconds, nanoseconds): &_| Instant::new(seconds, nanoseconds).unwrap();
    for a in &pairs {
        assert_eq!((instant(a).seconds(), instant(a).nanoseconds()), *a);
        for b in &pairs {
            assert_eq!(instant(a).cmp(&instant(b)), a.cmp(b));
            assert_eq!(instant(a) == instant(b), a == b);
        }
    }
    let all: HashSet<_> = pairs.iter().chain(&pairs).map(instant).collect();
    assert_eq!(all.len(), pairs.len());
    assert_eq!(Instant::new(0, 1_000_000_000), None);
    assert_eq!(Instant::new(0, u32::MAX), None);
}

#[test]
fn what_is_shown() {
    let shown = |seconds, nanoseconds| at(seconds, nanoseconds).to_string();
    assert_eq!(shown(0, 0), "0.000000000");
    assert_eq!(shown(1, 5), "1.000000005");
    assert_eq!(shown(-1, 0), "-1.000000000");
    assert_eq!(shown(-1, 999_999_999), "-0.000000001");
    assert_eq!(shown(-2, 500_000_000), "-1.500000000");
    assert_eq!(shown(i64::MIN, 0), "-9223372036854775808.000000000");
    assert_eq!(shown(i64::MIN, 1), "-9223372036854775807.999999999");
    assert_eq!(shown(i64::MAX, 999_999_999), "9223372036854775807.999999999");
    assert_eq!(format!("{:>13}|{:<13}|", at(1, 0), at(-1, 1)), "  1.000000000|-0.999999999 |");
    let [whole, truth, double] = [Value::Whole(-7), Value::Truth(true), Value::Double(-0.0)];
    assert_eq!(format!("{whole} {truth} {double} {whole:>4}"), "-7 true -0   -7");
}

/// An instant takes the format of a number, and a precision takes none of its digits.
#[test]
fn shown_as_numbers() {
    let (after, before, first) = (at(1, 5), at(-1, 500_000_000), at(i64::MIN, 0));
    assert_eq!(
        format!("{after:.3} {before:.0} {before:.20}"),
        "1.000000005 -0.500000000 -0.500000000"
    );
    assert_eq!(format!("{first:.3}"), "-9223372036854775808.000000000");
    assert_eq!(format!("{after:030}"), "00000000000000000001.000000005");
    assert_eq!(format!("{before:030}"), "-0000000000000000000.500000000");
    assert_eq!(format!("{first:032}"), "-009223372036854775808.000000000");
    assert_eq!(format!("{after:+} {before:+}"), "+1.000000005 -0.500000000");
    assert_eq!(format!("{:+} {first:+}", at(0, 0)), "+0.000000000 -9223372036854775808.000000000");
    assert_eq!(format!("{after:>30}"), "                   1.000000005");
    assert_eq!(format!("{before:>30}"), "                  -0.500000000");
    assert_eq!(format!("{first:>32}"), "  -9223372036854775808.000000000");
    // With a width alone a number stands to the right; zeros go ahead of an alignment.
    assert_eq!(format!("{after:13}|{after:*^13}|"), "  1.000000005|*1.000000005*|");
    assert_eq!(format!("{before:<+014.2}"), "-000.500000000");
    // It is so of the instant by itself too.
    let instant = Instant::new(-1, 500_000_000).unwrap();
    assert_eq!(format!("{instant:.3}{instant:+014}"), "-0.500000000-000.500000000");
}

/// From the messages of an item straight to its value; what is no item of 4.0 has none.
#[test]
fn joined() {
    let (mut out, mut buffer) = ([0; 64], [0; 64]);
    let mut assembly = Assembly::new();
    assembly.open(Gathering::TypedItem);
    let text = b"2024-05-01T09:00:00+02:00";
    let cut = Cut::TypedItem { class: 1, kind: DATE_TIME, url: Some(b"u"), text };
    let start = cut.write_part(0, &mut out).unwrap();
    let (part, _) = assembly.join(&mut buffer, Side::Server, start).unwrap();
    assert_eq!(part.value(), Ok(None));
    let end = write_empty(&mut out, Instruction::ITEM_END).unwrap();
    let (item, _) = assembly.join(&mut buffer, Side::Server, end).unwrap();
    assert_eq!(item.value(), Ok(Some(at(1_714_546_800, 0))));
    assert_eq!(Joined::Statement { format: 0, text }.value(), Ok(None));
    assert_eq!(Joined::Item { text }.value(), Ok(None));
    let other = Joined::TypedItem { class: 2, kind: DATE_TIME, text };
    assert_eq!(other.value(), Err(Refusal::NotOfForm));
}
