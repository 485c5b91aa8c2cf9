//! Values in JSON, in one line each.

use std::fmt;

pub enum Value {
    Number(u64),
    Text(String),
    Truth(bool),
    List(Vec<Value>),
    Object(Vec<(&'static str, Value)>),
}

impl Value {
    pub fn list<T>(rows: impl IntoIterator<Item = T>, value: impl FnMut(T) -> Value) -> Value {
        Value::List(rows.into_iter().map(value).collect())
    }
}

impl From<u32> for Value {
    fn from(number: u32) -> Value {
        Value::Number(number.into())
    }
}

impl From<usize> for Value {
    fn from(number: usize) -> Value {
        Value::Number(number as u64)
    }
}

impl From<String> for Value {
    fn from(text: String) -> Value {
        Value::Text(text)
    }
}

impl fmt::Display for Value {
    fn fmt(&self, out: &mut fmt::Formatter<'_>) -> fmt::Result {
        match self {
            Value::Number(number) => write!(out, "{number}"),
            Value::Text(text) => write!(out, "\"{}\"", escaped(text)),
            Value::Truth(truth) => write!(out, "{truth}"),
            Value::List(rows) => between(out, ('[', ']'), rows, |out, row| write!(out, "{row}")),
            Value::Object(keys) => between(out, ('{', '}'), keys, |out, (key, value)| write!(out, "\"{key}\":{value}")),
        }
    }
}

fn between<T>(
    out: &mut fmt::Formatter<'_>,
    brackets: (char, char),
    rows: &[T],
    mut write: impl FnMut(&mut fmt::Formatter<'_>, &T) -> fmt::Result,
) -> fmt::Result {
    write!(out, "{}", brackets.0)?;
    for (at, row) in rows.iter().enumerate() {
        if at > 0 {
            write!(out, ",")?;
        }
        write(out, row)?;
    }
    write!(out, "{}", brackets.1)
}

fn escaped(text: &str) -> String {
    let mut all = String::new();
    for one in text.chars() {
        match one {
            '"' => all += "\\\"",
            '\\' => all += "\\\\",
            '\n' => all += "\\n",
            _ if one < ' ' || one == '\u{7f}' => all += &format!("\\u{:04x}", u32::from(one)),
            _ => all.push(one),
        }
    }
    all
}
