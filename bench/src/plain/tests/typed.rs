//! Typed values: what each type takes, and which of 15 and 16 comes.

use super::super::refusal::{NOT_OF_FORM, OUT_OF_RANGE};
use super::super::typed::{typed, Instant, Typed};

fn value(kind: u8, text: &str) -> Result<Typed, u8> {
    typed(1, kind, text.as_bytes())
}

fn whole(kind: u8, text: &str) -> Result<i64, u8> {
    value(kind, text).map(|value| match value {
        Typed::Whole(number) => number,
        other => panic!("{other:?}"),
    })
}

/// The bits, so that the two zeros differ.
fn double(text: &str) -> Result<u64, u8> {
    value(22, text).map(|value| match value {
        Typed::Double(double) => double.to_bits(),
        other => panic!("{other:?}"),
    })
}

fn instant(text: &str) -> Result<(i64, u32), u8> {
    value(10, text).map(|value| match value {
        Typed::Instant(Instant { seconds, nanos }) => (seconds, nanos),
        other => panic!("{other:?}"),
    })
}

#[test]
fn the_incident() {
    let [a, b] = ["2024-05-01T09:00:00+02:00", "2024-05-01T08:30:00Z"].map(|t| instant(t).unwrap());
    assert_eq!((a, b), ((1_714_546_800, 0), (1_714_552_200, 0)));
    assert!(a < b);
}

#[test]
fn classes_and_types() {
    assert_eq!(typed(2, 24, b"1"), Err(NOT_OF_FORM));
    let named = [10, 22, 24, 25, 50, 51, 52, 53, 54, 55, 56, 57, 58, 59, 60, 61];
    for kind in 0..=255 {
        let taken =
            ["-1", "1", "1970-01-01T00:00:00Z"].iter().any(|text| value(kind, text).is_ok());
        assert_eq!(taken, named.contains(&kind), "{kind}");
    }
}

#[test]
fn booleans() {
    let texts = [("true", true), ("1", true), ("false", false), ("0", false)];
    for (text, truth) in texts {
        assert_eq!(value(25, text), Ok(Typed::Truth(truth)));
    }
    for text in ["", "True", "TRUE", "01", " true", "true ", "yes"] {
        assert_eq!(value(25, text), Err(NOT_OF_FORM), "{text}");
    }
}

#[test]
fn whole_numbers() {
    assert_eq!(whole(24, "-9223372036854775808"), Ok(i64::MIN));
    assert_eq!(whole(24, "9223372036854775808"), Err(OUT_OF_RANGE));
    assert_eq!(whole(24, &format!("+{}7", "0".repeat(100))), Ok(7));
    assert_eq!(whole(24, &format!("{}x", "9".repeat(100))), Err(NOT_OF_FORM));
    assert_eq!(whole(57, "+5"), Ok(5));
    assert_eq!(whole(58, "-0"), Ok(0));
    assert_eq!(whole(50, "+1"), Err(OUT_OF_RANGE));
    assert_eq!(whole(51, "0"), Err(OUT_OF_RANGE));
    assert_eq!(whole(61, "0"), Err(OUT_OF_RANGE));
    assert_eq!([whole(55, "127"), whole(55, "128")], [Ok(127), Err(OUT_OF_RANGE)]);
    assert_eq!([whole(55, "-128"), whole(55, "-129")], [Ok(-128), Err(OUT_OF_RANGE)]);
    for text in ["", "+", "-", "--1", "1.0", " 1", "1\n", "\u{661}"] {
        assert_eq!(whole(24, text), Err(NOT_OF_FORM), "{text}");
    }
}

#[test]
fn doubles() {
    for text in ["1", "1.", ".5", "+.5", "0.1", "-21.0055", "999999999999999", ".000000000000001"] {
        assert_eq!(double(text), Ok(text.parse::<f64>().unwrap().to_bits()), "{text}");
    }
    assert_eq!(double("-0"), Ok(1 << 63));
    let out =
        ["INF", "-INF", "NaN", "1E5", ".5e-3", "1.E+5", "0000000000000001", "1.000000000000000"];
    for text in out {
        assert_eq!(double(text), Err(OUT_OF_RANGE), "{text}");
    }
    for text in
        ["", ".", "-.", "+", "+INF", "-NaN", "inf", "1E", "E5", "1E5.0", "1e+", "1 ", "1..2"]
    {
        assert_eq!(double(text), Err(NOT_OF_FORM), "{text}");
    }
}

#[test]
fn instants() {
    assert_eq!(instant("1970-01-01T00:00:00Z"), Ok((0, 0)));
    assert_eq!(instant("1969-12-31T23:59:59.5Z"), Ok((-1, 500_000_000)));
    assert_eq!(instant("9999-12-31T24:00:00Z"), Ok((253_402_300_800, 0)));
    assert_eq!(instant("0001-01-01T00:00:00+14:00"), Ok((-62_135_647_200, 0)));
    assert_eq!(instant("2024-02-29T24:00:00.000-00:00"), instant("2024-03-01T00:00:00Z"));
    assert_eq!(instant("2000-01-01T00:00:00.123456789Z").unwrap().1, 123_456_789);
}

#[test]
fn form_before_range() {
    let out = [
        "0000-01-01T00:00:00Z",
        "-0000-01-01T00:00:00Z",
        "-0004-02-29T00:00:00Z",
        "10000-02-29T00:00:00Z",
        "2024-05-01T09:00:00",
        "2024-05-01T09:00:00.0000000000Z",
        "2024-05-01T24:00:00.0000000000Z",
        "99999999999999999999999-01-01T00:00:00Z",
    ];
    for text in out {
        assert_eq!(instant(text), Err(OUT_OF_RANGE), "{text}");
    }
    let malformed = [
        "0000-02-30T00:00:00Z",
        "0000-01-01T00:00:00+15:00",
        "-0001-02-29T00:00:00Z",
        "10001-02-29T00:00:00Z",
        "02000-01-01T00:00:00Z",
        "+2000-01-01T00:00:00Z",
        "2024-05-01T24:00:00.0000000001Z",
        "2024-05-01T24:00:01Z",
        "2024-05-01T23:59:60Z",
        "2024-05-01T09:00:00.Z",
        "2024-05-01T09:00:00+14:01",
        "2024-05-01T09:00:00+13:60",
        "2024-05-01T09:00:00+2:00",
        "2024-05-01T09:00:00z",
        "2024-05-01 09:00:00Z",
        "",
        "2024-13-01T00:00:00Z",
        "2024-00-01T00:00:00Z",
        "2024-05-00T00:00:00Z",
        "2024-05-01T09:00Z",
    ];
    for text in malformed {
        assert_eq!(instant(text), Err(NOT_OF_FORM), "{text}");
    }
}

/// One day after the other, from 0001 to 9999.
#[test]
fn every_day() {
    let mut expected = -62_135_596_800;
    for year in 1..=9999 {
        for month in 1..=12 {
            for day in 1..=31 {
                match instant(&format!("{year:04}-{month:02}-{day:02}T00:00:00Z")) {
                    Ok(answer) => assert_eq!(answer, (expected, 0)),
                    Err(number) => {
                        assert!(number == NOT_OF_FORM && day > 28);
                        continue;
                    }
                }
                expected += 86_400;
            }
        }
    }
    assert_eq!(expected, 253_402_300_800);
}

/// What the program `values` answers to its lines.
#[test]
fn the_stored_lines() {
    let lines = include_str!("../../../../crates/values/stdout").lines();
    let answered = lines.filter_map(|line| line.split_once(" = "));
    let mut count = 0;
    for (item, answer) in answered {
        let words: Vec<_> = item.split(' ').collect();
        let text = super::hex(words[2].trim_start_matches('-'));
        let typed = typed(words[0].parse().unwrap(), words[1].parse().unwrap(), &text);
        assert_eq!(shown(typed), answer, "{item}");
        count += 1;
    }
    assert!(count >= 1_500);
}

fn shown(typed: Result<Typed, u8>) -> String {
    match typed {
        Ok(Typed::Whole(number)) => format!("whole {number}"),
        Ok(Typed::Instant(Instant { seconds, nanos })) => format!("instant {seconds} {nanos}"),
        Ok(Typed::Truth(truth)) => (if truth { "yes" } else { "no" }).into(),
        Ok(Typed::Double(double)) => format!("double {:016X}", double.to_bits()),
        Err(number) => format!("refused {number}"),
    }
}
