//! Items whose texts have a value, or nearly: at the edges of what each type takes, and random ones,
//! every second damaged; and texts of usual shapes to be timed.

use super::Rng;

const RANDOM_TEXTS: usize = 1_200_000;
const TIMED_TEXTS: usize = 1_000;

const INSTANT: u8 = 10;
const DOUBLE: u8 = 22;
const BOOLEAN: u8 = 25;
const WHOLE: [u8; 13] = [24, 50, 51, 52, 53, 54, 55, 56, 57, 58, 59, 60, 61];

/// What the texts are made of, with some bytes that none has.
const LETTERS: &[u8] = b"0123456789012345678900++--..::TZEeINFNaNtruefals \n\0/;\xB2";

/// An item, sound or not.
#[derive(Clone)]
pub struct Item {
    pub class: u8,
    pub kind: u8,
    pub text: Vec<u8>,
}

fn item(kind: u8, text: impl Into<Vec<u8>>) -> Item {
    Item { class: 1, kind, text: text.into() }
}

/// Every item: all short texts of few letters, the edges, then random ones.
pub fn items() -> impl Iterator<Item = Item> {
    let mut rng = Rng::new(31);
    let random = (0..RANDOM_TEXTS).map(move |k| {
        let mut item = drawn(&mut rng);
        if k % 2 == 1 {
            damage(&mut rng, &mut item);
        }
        item
    });
    short().chain(whole_edges()).chain(dates()).chain(times()).chain(zones()).chain(random)
}

/// All texts of up to four of nine letters, as a double, a boolean and four kinds of whole number.
fn short() -> impl Iterator<Item = Item> {
    let letters = b"0159+-.Ee";
    let count: usize = (0..=4).map(|length| letters.len().pow(length)).sum();
    let text = |mut k: usize| {
        let mut text = Vec::new();
        while k > 0 {
            k -= 1;
            text.push(letters[k % letters.len()]);
            k /= letters.len();
        }
        text
    };
    let kinds = [DOUBLE, BOOLEAN, 24, 50, 55, 61];
    (0..count).flat_map(move |k| kinds.map(|kind| item(kind, text(k))))
}

/// Around the ends of every range, with zeros in front and without, as every kind.
fn whole_edges() -> impl Iterator<Item = Item> {
    let ends =
        [0, 1, 1 << 7, 1 << 8, 1 << 15, 1 << 16, 1 << 31, 1 << 32, 1 << 63, 1 << 64, 1i128 << 65];
    let numbers = ends.into_iter().flat_map(|end| end - 2..=end + 2).flat_map(|n| [n, -n]);
    let texts = numbers.flat_map(|number| {
        let (sign, size) = (if number < 0 { "-" } else { "" }, number.abs());
        let plus = if number < 0 { "-" } else { "+" };
        [format!("{sign}{size}"), format!("{plus}{size}"), format!("{sign}{size:060}")]
    });
    texts.flat_map(|text| WHOLE.map(|kind| item(kind, text.clone())))
}

/// Every month and day, and those beside them, in years of each kind.
fn dates() -> impl Iterator<Item = Item> {
    let years = [
        "-10004",
        "-10000",
        "-0400",
        "-0100",
        "-0004",
        "-0001",
        "-0000",
        "0000",
        "0001",
        "0004",
        "0100",
        "0400",
        "1582",
        "1600",
        "1900",
        "1969",
        "1970",
        "1999",
        "2000",
        "2023",
        "2024",
        "2100",
        "9996",
        "9999",
        "10000",
        "10001",
        "10004",
        "02024",
        "202",
        "99999999999999999996",
        "100000000000000000000000000000400",
    ];
    let days = years.into_iter().flat_map(|year| (0..=13).map(move |month| (year, month)));
    days.flat_map(|(year, month)| {
        (0..=32).map(move |day| item(INSTANT, format!("{year}-{month:02}-{day:02}T12:00:00Z")))
    })
}

/// Hours, minutes and seconds up to one too many, and fractions up to one digit too many.
fn times() -> impl Iterator<Item = Item> {
    let clocks = (0..=25).flat_map(|hour| [0, 1, 59, 60].map(|minute| (hour, minute)));
    let clocks = clocks.flat_map(|(hour, minute)| [0, 1, 59, 60].map(|s| (hour, minute, s)));
    let fractions = ["", ".", ".0", ".5", ".000000000", ".000000001", ".0000000000", ".0000000001"];
    clocks.flat_map(move |(hour, minute, second)| {
        fractions.map(|fraction| {
            let time = format!("{hour:02}:{minute:02}:{second:02}{fraction}");
            item(INSTANT, format!("2024-02-29T{time}Z"))
        })
    })
}

/// Zones of every hour and minute up to one too many, and others that are malformed or missing.
fn zones() -> impl Iterator<Item = Item> {
    let offsets = (0..=16).flat_map(|hours| (0..=61).map(move |minutes| (hours, minutes)));
    let sound = offsets.flat_map(|(hours, minutes)| {
        ["+", "-"].map(|sign| format!("{sign}{hours:02}:{minutes:02}"))
    });
    let others = [
        "", "Z", "z", "ZZ", "Z ", "+", "+1", "+01", "+01:", "+01:0", "+0100", "+01:000", "01:00",
        " +01:00",
    ];
    let zones = sound.chain(others.map(String::from));
    zones.map(|zone| item(INSTANT, format!("0001-01-01T00:00:00{zone}")))
}

/// A sound item, as often an instant or a double as a whole number.
fn drawn(rng: &mut Rng) -> Item {
    match rng.below(16) {
        0..=5 => item(INSTANT, date_time(rng)),
        6..=9 => item(DOUBLE, decimal(rng)),
        10 => item(BOOLEAN, rng.pick(&["true", "false", "1", "0"])),
        _ => {
            let length = rng.pick(&[1, 2, 3, 5, 9, 10, 18, 19, 19, 20, 40]);
            let sign = rng.pick(&["", "", "-", "+"]);
            let digits = digits(rng, length);
            item(rng.pick(&WHOLE), format!("{sign}{digits}"))
        }
    }
}

fn digits(rng: &mut Rng, length: usize) -> String {
    (0..length).map(|_| char::from(b'0' + rng.below(10) as u8)).collect()
}

fn date(rng: &mut Rng, first: usize, last: usize) -> String {
    let (year, month, day) = (rng.between(first, last), rng.between(1, 12), rng.between(1, 28));
    let [hour, minute, second] = [24, 60, 60].map(|n| rng.below(n));
    format!("{year:04}-{month:02}-{day:02}T{hour:02}:{minute:02}:{second:02}")
}

fn date_time(rng: &mut Rng) -> String {
    let date = date(rng, 0, 10_000);
    let length = rng.pick(&[0, 0, 0, 1, 3, 6, 9, 10]);
    let fraction = if length == 0 { String::new() } else { format!(".{}", digits(rng, length)) };
    let zone = match rng.below(3) {
        0 => "Z".into(),
        1 => format!("+{:02}:{:02}", rng.between(0, 13), rng.between(0, 59)),
        _ => format!("-{:02}:{:02}", rng.between(0, 13), rng.between(0, 59)),
    };
    format!("{date}{fraction}{zone}")
}

fn decimal(rng: &mut Rng) -> String {
    let length = rng.between(1, 16);
    let sign = rng.pick(&["", "", "-", "+"]);
    let digits = digits(rng, length);
    let point = rng.between(0, length);
    match rng.below(8) {
        0 => format!("{sign}{digits}"),
        1 => format!("{sign}{digits}E{}", rng.below(400)),
        2 => rng.pick(&["INF", "-INF", "NaN"]).into(),
        _ => format!("{sign}{}.{}", &digits[..point], &digits[point..]),
    }
}

/// One change, and now and then two.
fn damage(rng: &mut Rng, item: &mut Item) {
    strike(rng, item);
    if rng.one_in(4) {
        strike(rng, item);
    }
}

fn strike(rng: &mut Rng, item: &mut Item) {
    let (text, letter) = (&mut item.text, rng.pick(LETTERS));
    let at = rng.below(text.len() + 1);
    match rng.below(10) {
        0 | 1 => text.insert(at, letter),
        2 => text.truncate(at),
        3 => text.push(rng.pick(b" \n0Z")),
        4 if at < text.len() => {
            text.remove(at);
        }
        5 => item.kind = rng.byte(),
        6 => item.class = rng.byte() % 10,
        7 => text.clear(),
        _ if at < text.len() => text[at] = letter,
        _ => text.insert(0, letter),
    }
}

/// Items of one usual shape, by the name of the shape.
pub struct Timed {
    pub name: &'static str,
    pub kind: u8,
    pub texts: Vec<Vec<u8>>,
}

/// The shapes that are timed.
pub fn timed() -> Vec<Timed> {
    let of = |name, kind, text: fn(&mut Rng) -> String| {
        let mut rng = Rng::new(32);
        let texts = (0..TIMED_TEXTS).map(|_| text(&mut rng).into_bytes()).collect();
        Timed { name, kind, texts }
    };
    vec![
        of("an instant, 2024-05-01T09:00:00Z", INSTANT, |rng| recent(rng) + "Z"),
        of("an instant, 2024-05-01T09:00:00+02:00", INSTANT, |rng| recent(rng) + "+02:00"),
        of("an instant, 2024-05-01T09:00:00.123Z", INSTANT, |rng| {
            recent(rng) + "." + &digits(rng, 3) + "Z"
        }),
        of("instants of all these shapes", INSTANT, |rng| {
            let millis = format!(".{}Z", digits(rng, 3));
            recent(rng) + rng.pick(&["Z", "+02:00", &millis])
        }),
        of("a whole number, 1 to 3 digits", 24, |rng| counted(rng, 1, 3)),
        of("a whole number, 1 to 9 digits", 53, |rng| counted(rng, 1, 9)),
        of("a whole number, 18 digits", 24, |rng| counted(rng, 18, 18)),
        of("a double, 1 to 3 digits, point, 1 or 2", DOUBLE, |rng| {
            counted(rng, 1, 3) + "." + &counted(rng, 1, 2)
        }),
        of("a double, 1 to 15 digits", DOUBLE, |rng| counted(rng, 1, 15)),
        of("a double, 15 digits and a point", DOUBLE, |rng| {
            let (digits, point) = (counted(rng, 15, 15), rng.between(0, 15));
            format!("{}.{}", &digits[..point], &digits[point..])
        }),
        of("a boolean", BOOLEAN, |rng| rng.pick(&["true", "false", "1", "0"]).into()),
    ]
}

fn recent(rng: &mut Rng) -> String {
    date(rng, 1970, 2050)
}

/// So many digits, of which the first is not 0.
fn counted(rng: &mut Rng, least: usize, most: usize) -> String {
    let length = rng.between(least, most);
    char::from(b'1' + rng.below(9) as u8).to_string() + &digits(rng, length - 1)
}
