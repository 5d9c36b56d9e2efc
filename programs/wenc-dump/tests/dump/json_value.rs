//! A reader of JSON.

use std::collections::BTreeMap;

/// A value.
#[derive(Debug, PartialEq, Eq)]
pub enum Value {
    Null,
    Flag(bool),
    Number(u128),
    Text(String),
    List(Vec<Value>),
    Object(BTreeMap<String, Value>),
}

impl Value {
    /// Parses a line, which is one value.
    pub fn read(text: &str) -> Self {
        let mut rest = text.strip_suffix('\n').expect("it is a line");
        let value = value(&mut rest);
        assert_eq!(rest, "");
        value
    }

    /// A field of an object.
    pub fn at(&self, key: &str) -> &Self {
        let Self::Object(fields) = self else { panic!("no object: {self:?}") };
        fields.get(key).unwrap_or_else(|| panic!("no {key}"))
    }

    pub fn list(&self) -> &[Self] {
        let Self::List(values) = self else { panic!("no list: {self:?}") };
        values
    }

    pub fn number(&self) -> u128 {
        let Self::Number(number) = self else { panic!("no number: {self:?}") };
        *number
    }

    pub fn text(&self) -> &str {
        let Self::Text(text) = self else { panic!("no text: {self:?}") };
        text
    }
}

/// Removes this prefix, and returns whether it was there.
fn take(rest: &mut &str, front: &str) -> bool {
    let after = rest.strip_prefix(front);
    *rest = after.unwrap_or(rest);
    after.is_some()
}

fn value(rest: &mut &str) -> Value {
    match rest.chars().next().expect("a value is there") {
        'n' => word(rest, "null", Value::Null),
        't' => word(rest, "true", Value::Flag(true)),
        'f' => word(rest, "false", Value::Flag(false)),
        '"' => Value::Text(text(rest)),
        '[' => Value::List(members(rest, "[", "]", value)),
        '{' => Value::Object(object(members(rest, "{", "}", field))),
        _ => {
            let digits = rest.find(|letter: char| !letter.is_ascii_digit()).unwrap_or(rest.len());
            let (number, after) = rest.split_at(digits);
            *rest = after;
            Value::Number(number.parse().expect("it is a number"))
        }
    }
}

fn word(rest: &mut &str, word: &str, value: Value) -> Value {
    assert!(take(rest, word), "{rest}");
    value
}

/// Values between brackets, with commas.
fn members<T>(rest: &mut &str, open: &str, close: &str, one: fn(&mut &str) -> T) -> Vec<T> {
    assert!(take(rest, open));
    let mut members = Vec::new();
    if take(rest, close) {
        return members;
    }
    loop {
        members.push(one(rest));
        if take(rest, close) {
            return members;
        }
        assert!(take(rest, ","), "{rest}");
    }
}

fn field(rest: &mut &str) -> (String, Value) {
    let key = text(rest);
    assert!(take(rest, ":"), "{rest}");
    (key, value(rest))
}

/// An object from fields with different keys.
fn object(fields: Vec<(String, Value)>) -> BTreeMap<String, Value> {
    let len = fields.len();
    let fields: BTreeMap<String, Value> = fields.into_iter().collect();
    assert_eq!(fields.len(), len);
    fields
}

fn text(rest: &mut &str) -> String {
    assert!(take(rest, "\""), "{rest}");
    let mut text = String::new();
    loop {
        let mut letters = rest.chars();
        let letter = letters.next().expect("the text ends");
        *rest = letters.as_str();
        match letter {
            '"' => return text,
            '\\' => text.push(escaped(rest)),
            _ => {
                assert!(u32::from(letter) >= 0x20, "{rest}");
                text.push(letter);
            }
        }
    }
}

/// Returns the character of an escape sequence that this crate writes.
fn escaped(rest: &mut &str) -> char {
    for letter in ['"', '\\'] {
        if take(rest, letter.encode_utf8(&mut [0; 4])) {
            return letter;
        }
    }
    assert!(take(rest, "u"), "{rest}");
    let (digits, after) = rest.split_at(4);
    *rest = after;
    let number = u32::from_str_radix(digits, 16).expect("they are digits");
    char::from_u32(number).expect("it is no surrogate")
}
