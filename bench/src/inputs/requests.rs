//! Calls of the writers, those that are to be refused included.

use super::valid::{body_length, class, kind};
use super::{Rng, MESSAGES};
use crate::plain::{Shape, Value, BODY_MAX};

const REQUESTS: usize = 150_000;

/// One call: the value is made of the fields that its shape uses.
pub struct Request {
    pub instruction: u32,
    /// How many bytes of output are lent.
    pub room: usize,
    shape: Shape,
    code: u32,
    /// Version, format, or class with type and whether there is a URL.
    marks: [u8; 3],
    /// User, text, URL, or the values of options.
    first: Vec<u8>,
    /// Database, or the part of an item.
    second: Vec<u8>,
    ids: Vec<u32>,
    lengths: Vec<usize>,
}

impl Request {
    pub fn value(&self) -> Value<'_> {
        let [a, b, flag] = self.marks;
        match self.shape {
            Shape::Empty => Value::Empty,
            Shape::Session => {
                Value::Session { major: a, minor: b, user: &self.first, database: &self.second }
            }
            Shape::Text => Value::Text(&self.first),
            Shape::Statement => Value::Statement { format: a, text: &self.first },
            Shape::Coded => Value::Coded { code: self.code, text: &self.first },
            Shape::Options => {
                Value::Options { ids: &self.ids, lengths: &self.lengths, values: &self.first }
            }
            Shape::Item => {
                let url = (flag != 0).then_some(&self.first[..]);
                Value::Item { class: a, kind: b, url, part: &self.second }
            }
        }
    }

    /// The bytes of the message, were it written.
    fn exact(&self) -> usize {
        let texts = self.first.len() + self.second.len();
        8 + match self.shape {
            Shape::Item if self.marks[2] == 0 => 8 + self.second.len(),
            shape => fixed(shape) + 9 * self.ids.len() + texts,
        }
    }
}

/// The bytes of a body besides texts and option pairs.
fn fixed(shape: Shape) -> usize {
    match shape {
        Shape::Empty | Shape::Options => 0,
        Shape::Text => 5,
        Shape::Statement => 6,
        Shape::Coded => 9,
        Shape::Session => 12,
        Shape::Item => 13,
    }
}

pub fn requests() -> impl Iterator<Item = Request> {
    let mut rng = Rng::new(2);
    (0..REQUESTS).map(move |_| {
        let mut request = sound(&mut rng);
        if rng.one_in(3) {
            spoil(&mut rng, &mut request);
        }
        if rng.one_in(6) {
            request.instruction = wrong_instruction(&mut rng);
        }
        request.room = room(&mut rng, request.exact());
        request
    })
}

/// A call that only its length or the room can get refused.
fn sound(rng: &mut Rng) -> Request {
    let (mut instruction, _, mut shape) = rng.pick(&MESSAGES);
    if shape == Shape::Empty && rng.one_in(2) {
        (instruction, shape) = rng.pick(&[
            (120, Shape::Session),
            (301, Shape::Statement),
            (355, Shape::Item),
            (530, Shape::Options),
        ]);
    }
    let mut request = Request {
        instruction,
        room: 0,
        shape,
        code: rng.int(),
        marks: marks(rng, shape),
        first: Vec::new(),
        second: Vec::new(),
        ids: Vec::new(),
        lengths: Vec::new(),
    };
    let far = if rng.one_in(20) { rng.below(60_000) } else { 0 };
    fill(rng, &mut request, far);
    request
}

fn marks(rng: &mut Rng, shape: Shape) -> [u8; 3] {
    match shape {
        Shape::Session => [rng.between(1, 4) as u8, 0, 0],
        Shape::Statement => [rng.below(2) as u8, 0, 0],
        Shape::Item => [class(rng), kind(rng), rng.below(2) as u8],
        _ => [0; 3],
    }
}

/// Texts or pairs for a body of a drawn length, and `far` bytes more.
fn fill(rng: &mut Rng, request: &mut Request, far: usize) {
    let without_url = request.shape == Shape::Item && request.marks[2] == 0;
    let fixed = fixed(request.shape) - if without_url { 5 } else { 0 };
    let length = body_length(rng).saturating_sub(fixed) + far;
    match request.shape {
        Shape::Empty => {}
        Shape::Options => fill_pairs(rng, request, length),
        Shape::Session | Shape::Item => {
            let any = rng.between(0, length);
            let first = if without_url { 0 } else { rng.pick(&[0, any, length]) };
            request.first = rng.bytes(first);
            request.second = rng.bytes(length - first);
        }
        _ => request.first = rng.bytes(length),
    }
}

fn fill_pairs(rng: &mut Rng, request: &mut Request, mut left: usize) {
    let longest = rng.pick(&[0, 5, 60, BODY_MAX]);
    while left >= 9 {
        let value = rng.between(0, longest.min(left - 9));
        request.ids.push(rng.int());
        request.lengths.push(value);
        left -= 9 + value;
    }
    let total = request.lengths.iter().sum();
    request.first = rng.bytes(total);
}

/// Something that is not allowed, though not every draw is.
fn spoil(rng: &mut Rng, request: &mut Request) {
    match request.shape {
        Shape::Options => spoil_pairs(rng, request),
        Shape::Item if rng.one_in(3) => {
            let length = rng.between(0, 9);
            request.first = rng.bytes(length);
        }
        _ => {
            let any = rng.byte();
            let mark = rng.pick(&[0, 1, 2, 4, 5, 6, 7, 8, 9, 10, 32, 33, 40, 41, 61, 62, any]);
            request.marks[rng.below(3)] = mark;
        }
    }
}

/// Lists that disagree, also by a sum that would wrap to the right one.
fn spoil_pairs(rng: &mut Rng, request: &mut Request) {
    match rng.below(6) {
        0 => request.ids.push(rng.int()),
        1 => request.lengths.push(0),
        2 => request.first.push(rng.byte()),
        3 => drop(request.first.pop()),
        4 => drop(request.ids.pop()),
        _ => {
            let huge = usize::MAX - rng.below(3);
            request.ids.extend([1, 2]);
            request.lengths.extend([huge, huge.wrapping_neg()]);
        }
    }
}

/// One of any shape, or an unknown one.
fn wrong_instruction(rng: &mut Rng) -> u32 {
    let known = rng.pick(&MESSAGES).0;
    let any = rng.int();
    rng.pick(&[known, known, known + 1, known - 1, known + 65_536, any, 0])
}

fn room(rng: &mut Rng, exact: usize) -> usize {
    match rng.below(8) {
        0 => 0,
        1 => exact - 1,
        2 => rng.between(0, exact),
        3 | 4 => exact + rng.between(1, 40),
        _ => exact,
    }
}
