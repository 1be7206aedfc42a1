//! A message that was read, turned into the value that writes it again.

use crate::plain::{Body, Value};

/// The pairs of a body, as the writers take them; none for other shapes.
#[derive(Default)]
pub struct OptionLists {
    ids: Vec<u32>,
    lengths: Vec<usize>,
    values: Vec<u8>,
}

impl OptionLists {
    pub fn of(body: &Body) -> Self {
        let mut lists = Self::default();
        if let Body::Options(pairs) = body {
            for (id, value) in pairs.iter() {
                lists.ids.push(id);
                lists.lengths.push(value.len());
                lists.values.extend(value);
            }
        }
        lists
    }
}

pub fn value_of<'a>(body: &Body<'a>, lists: &'a OptionLists) -> Value<'a> {
    match *body {
        Body::Empty => Value::Empty,
        Body::Session { major, minor, user, database } => {
            Value::Session { major, minor, user, database }
        }
        Body::Text(text) => Value::Text(text),
        Body::Statement { format, text } => Value::Statement { format, text },
        Body::Coded { code, text } => Value::Coded { code, text },
        Body::Options(_) => {
            Value::Options { ids: &lists.ids, lengths: &lists.lengths, values: &lists.values }
        }
        Body::Item { class, kind, url, part } => Value::Item { class, kind, url, part },
    }
}
