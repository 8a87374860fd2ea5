//! JSON as a value, and its text: RFC 8259, in UTF-8, keys in the order in which they were given.
//! Numbers are whole by construction.

use crate::escape;
use std::fmt::{self, Display, Formatter};

/// A JSON value. Floats are left out on purpose: no report has any.
#[derive(Clone, Debug, PartialEq, Eq)]
pub enum Value {
    Null,
    Bool(bool),
    Number(u64),
    Text(String),
    List(Vec<Value>),
    Object(Vec<(&'static str, Value)>),
}

/// An object from its members; a member without a value is written as null.
pub fn object<const N: usize>(members: [(&'static str, Value); N]) -> Value {
    Value::Object(members.into())
}

/// A list from whatever can be a value.
pub fn list<T: Into<Value>>(items: impl IntoIterator<Item = T>) -> Value {
    Value::List(items.into_iter().map(Into::into).collect())
}

impl Value {
    /// The object with one more member, where there is a value for it.
    pub fn with(mut self, key: &'static str, value: Option<Value>) -> Value {
        if let (Value::Object(members), Some(value)) = (&mut self, value) {
            members.push((key, value));
        }
        self
    }

    /// The text of a file: the value and a line end.
    pub fn to_file(&self) -> String {
        format!("{self}\n")
    }
}

impl From<&str> for Value {
    fn from(text: &str) -> Value {
        Value::Text(text.to_string())
    }
}

impl From<String> for Value {
    fn from(text: String) -> Value {
        Value::Text(text)
    }
}

impl From<bool> for Value {
    fn from(yes: bool) -> Value {
        Value::Bool(yes)
    }
}

impl From<usize> for Value {
    fn from(number: usize) -> Value {
        Value::Number(number as u64)
    }
}

impl From<u32> for Value {
    fn from(number: u32) -> Value {
        Value::Number(number.into())
    }
}

impl From<u16> for Value {
    fn from(number: u16) -> Value {
        Value::Number(number.into())
    }
}

impl<T: Into<Value>> From<Option<T>> for Value {
    fn from(value: Option<T>) -> Value {
        value.map_or(Value::Null, Into::into)
    }
}

impl Display for Value {
    fn fmt(&self, f: &mut Formatter<'_>) -> fmt::Result {
        self.write(f, 0)
    }
}

impl Value {
    fn write(&self, f: &mut Formatter<'_>, depth: usize) -> fmt::Result {
        match self {
            Value::Null => f.write_str("null"),
            Value::Bool(yes) => write!(f, "{yes}"),
            Value::Number(number) => write!(f, "{number}"),
            Value::Text(text) => write!(f, "\"{}\"", escape::json(text)),
            Value::List(items) => between(f, '[', ']', depth, items, |f, item| item.write(f, depth + 1)),
            Value::Object(members) => between(f, '{', '}', depth, members, |f, (key, value)| {
                write!(f, "\"{}\": ", escape::json(key))?;
                value.write(f, depth + 1)
            }),
        }
    }
}

/// Items between brackets, each on its own line, two blanks deeper.
fn between<T>(
    f: &mut Formatter<'_>,
    open: char,
    close: char,
    depth: usize,
    items: &[T],
    mut item: impl FnMut(&mut Formatter<'_>, &T) -> fmt::Result,
) -> fmt::Result {
    write!(f, "{open}")?;
    for (i, one) in items.iter().enumerate() {
        write!(f, "{}\n{:2$}", if i == 0 { "" } else { "," }, "", 2 * depth + 2)?;
        item(f, one)?;
    }
    if !items.is_empty() {
        write!(f, "\n{:1$}", "", 2 * depth)?;
    }
    write!(f, "{close}")
}
