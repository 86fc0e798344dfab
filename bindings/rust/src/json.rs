//! A reader of JSON, as far as answers have it: objects, arrays, strings, and numbers without sign and fraction.

use std::iter::Peekable;
use std::str::Chars;

#[derive(Debug, PartialEq, Eq)]
pub(crate) enum Value {
    Object(Vec<(String, Value)>),
    Array(Vec<Value>),
    Text(String),
    Number(usize),
}

impl Value {
    pub(crate) fn member(&self, name: &str) -> Option<&Value> {
        match self {
            Value::Object(members) => members.iter().find(|it| it.0 == name).map(|it| &it.1),
            _ => None,
        }
    }

    pub(crate) fn items(&self) -> Option<&[Value]> {
        match self {
            Value::Array(items) => Some(items),
            _ => None,
        }
    }

    pub(crate) fn text(&self) -> Option<&str> {
        match self {
            Value::Text(text) => Some(text),
            _ => None,
        }
    }

    pub(crate) fn number(&self) -> Option<usize> {
        match self {
            Value::Number(number) => Some(*number),
            _ => None,
        }
    }
}

/// The value that a text is, without blanks.
pub(crate) fn read(text: &str) -> Option<Value> {
    let mut left = text.chars().peekable();
    let value = value(&mut left)?;
    left.next().is_none().then_some(value)
}

fn value(left: &mut Peekable<Chars>) -> Option<Value> {
    match left.peek()? {
        '{' => list(left, '{', '}', member).map(Value::Object),
        '[' => list(left, '[', ']', value).map(Value::Array),
        '"' => string(left).map(Value::Text),
        _ => number(left).map(Value::Number),
    }
}

/// What stands between two brackets, with commas between.
fn list<T>(
    left: &mut Peekable<Chars>,
    open: char,
    close: char,
    item: fn(&mut Peekable<Chars>) -> Option<T>,
) -> Option<Vec<T>> {
    left.next_if_eq(&open)?;
    let mut items = Vec::new();
    if left.next_if_eq(&close).is_some() {
        return Some(items);
    }
    loop {
        items.push(item(left)?);
        match left.next()? {
            ',' => {}
            end => return (end == close).then_some(items),
        }
    }
}

fn member(left: &mut Peekable<Chars>) -> Option<(String, Value)> {
    let name = string(left)?;
    left.next_if_eq(&':')?;
    Some((name, value(left)?))
}

fn string(left: &mut Peekable<Chars>) -> Option<String> {
    left.next_if_eq(&'"')?;
    let mut text = String::new();
    loop {
        match left.next()? {
            '"' => return Some(text),
            '\\' => text.push(escaped(left)?),
            character => text.push(character),
        }
    }
}

/// What an escape behind a backslash stands for.
fn escaped(left: &mut Peekable<Chars>) -> Option<char> {
    Some(match left.next()? {
        'b' => '\u{8}',
        'f' => '\u{c}',
        'n' => '\n',
        'r' => '\r',
        't' => '\t',
        'u' => return unicode(left),
        character => character,
    })
}

/// The character of `uXXXX`, or of two halves.
fn unicode(left: &mut Peekable<Chars>) -> Option<char> {
    let first = unit(left)?;
    if !(0xD800..0xDC00).contains(&first) {
        return char::from_u32(first);
    }
    left.next_if_eq(&'\\')?;
    left.next_if_eq(&'u')?;
    let second = unit(left)?.checked_sub(0xDC00).filter(|it| *it < 0x400)?;
    char::from_u32(0x10000 + ((first - 0xD800) << 10) + second)
}

fn unit(left: &mut Peekable<Chars>) -> Option<u32> {
    (0..4).try_fold(0, |unit, _| Some(unit * 16 + left.next()?.to_digit(16)?))
}

fn number(left: &mut Peekable<Chars>) -> Option<usize> {
    let mut digits = String::new();
    while let Some(digit) = left.next_if(char::is_ascii_digit) {
        digits.push(digit);
    }
    digits.parse().ok()
}

#[cfg(test)]
mod tests {
    use super::*;

    #[test]
    fn values_are_read() {
        let text = r#"{"a":["\"\\\u00e9\ud83d\ude00\n",12,[]],"b":{}}"#;
        let items = vec![
            Value::Text("\"\\\u{e9}\u{1f600}\n".to_owned()),
            Value::Number(12),
            Value::Array(vec![]),
        ];
        let wanted = vec![
            ("a".to_owned(), Value::Array(items)),
            ("b".to_owned(), Value::Object(vec![])),
        ];
        assert_eq!(read(text), Some(Value::Object(wanted)));
    }

    #[test]
    fn other_texts_are_refused() {
        for text in ["", "{", "[1,]", "[1", "[1]]", "\"a", "-1", r#""\ud800""#, "{1:2}"] {
            assert_eq!(read(text), None, "{text}");
        }
    }
}
