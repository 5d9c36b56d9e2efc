//! The schema of JSON: it holds for what is printed of the corpus, and not for other values.

use crate::json_value::Value;
use crate::{FUNCTION, component, corpus, dump};
use std::fs;

const SCHEMA: &str = include_str!("../../../../docs/wenc-dump.schema.json");

/// Returns a field of an object, if it has it.
fn field<'v>(value: &'v Value, key: &str) -> Option<&'v Value> {
    match value {
        Value::Object(fields) => fields.get(key),
        _ => None,
    }
}

fn type_of(value: &Value) -> &'static str {
    match value {
        Value::Null => "null",
        Value::Flag(_) => "boolean",
        Value::Number(_) => "integer",
        Value::Text(_) => "string",
        Value::List(_) => "array",
        Value::Object(_) => "object",
    }
}

/// Returns whether a text has one of the patterns that the schema has.
fn has_pattern(pattern: &str, text: &str) -> bool {
    match pattern {
        "^[A-Z]" => text.starts_with(|letter: char| letter.is_ascii_uppercase()),
        "^([0-9a-f]{2})+$" => {
            let is_digit = |byte: &u8| matches!(byte, b'0'..=b'9' | b'a'..=b'f');
            !text.is_empty() && text.len() % 2 == 0 && text.as_bytes().iter().all(is_digit)
        }
        _ => panic!("a pattern that isn't known: {pattern}"),
    }
}

/// A schema, with the one that has its definitions.
#[derive(Clone, Copy)]
struct Schema<'s>(&'s Value, &'s Value);

impl<'s> Schema<'s> {
    /// Returns whether a value has one keyword.
    fn has(self, keyword: &str, of: &'s Value, value: &Value) -> bool {
        let own = |schema| Schema(schema, self.1);
        match (keyword, value) {
            ("$schema" | "title" | "description" | "$defs", _) => true,
            ("$ref", _) => {
                let name = of.text().strip_prefix("#/$defs/").expect("one of the definitions");
                own(self.1.at("$defs").at(name)).is_of(value)
            }
            ("type", _) => match of {
                Value::List(all) => all.iter().any(|one| one.text() == type_of(value)),
                one => one.text() == type_of(value),
            },
            ("const", _) => of == value,
            ("anyOf", _) => of.list().iter().any(|one| own(one).is_of(value)),
            ("minimum", Value::Number(number)) => *number >= of.number(),
            ("maximum", Value::Number(number)) => *number <= of.number(),
            ("pattern", Value::Text(text)) => has_pattern(of.text(), text),
            ("items", Value::List(all)) => all.iter().all(|one| own(of).is_of(one)),
            ("properties", Value::Object(fields)) => fields
                .iter()
                .all(|(key, one)| field(of, key).is_none_or(|schema| own(schema).is_of(one))),
            ("required", Value::Object(fields)) => {
                of.list().iter().all(|key| fields.contains_key(key.text()))
            }
            ("additionalProperties", Value::Object(fields)) => {
                assert_eq!(*of, Value::Flag(false));
                fields.keys().all(|key| field(self.0.at("properties"), key).is_some())
            }
            ("minProperties", Value::Object(fields)) => fields.len() as u128 >= of.number(),
            ("maxProperties", Value::Object(fields)) => fields.len() as u128 <= of.number(),
            ("propertyNames", Value::Object(fields)) => {
                fields.keys().all(|key| has_pattern(of.at("pattern").text(), key))
            }
            ("minimum" | "maximum" | "pattern" | "items" | "properties" | "required", _)
            | ("additionalProperties" | "minProperties" | "maxProperties", _)
            | ("propertyNames", _) => true,
            _ => panic!("a keyword that isn't known: {keyword}"),
        }
    }

    fn is_of(self, value: &Value) -> bool {
        let Value::Object(keywords) = self.0 else { panic!("no schema") };
        keywords.iter().all(|(keyword, of)| self.has(keyword, of, value))
    }
}

/// Returns the schema as a value.
fn schema() -> Value {
    let mut text = String::new();
    let mut is_text = false;
    for letter in SCHEMA.chars() {
        is_text ^= letter == '"';
        text.extend(Some(letter).filter(|letter| is_text || !letter.is_whitespace()));
    }
    Value::read(&(text + "\n"))
}

#[test]
fn what_is_printed_is_of_the_schema() {
    let schema = schema();
    let schema = Schema(&schema, &schema);
    let mut lines = 0;
    for path in fs::read_dir(corpus::corpus("wasm")).expect("the corpus") {
        let mut bytes = fs::read(path.expect("a file").path()).expect("it is read");
        for place in [None, Some(bytes.len() / 2), Some(bytes.len() / 3), Some(9)] {
            place.into_iter().for_each(|place| bytes[place] ^= 0x55);
            for options in [&["--json", "--hex", "--check"][..], &["--json", "--compact"]] {
                let (_, out, _) = dump(options, &bytes);
                assert!(schema.is_of(&Value::read(&out)), "{out}");
                lines += 1;
            }
        }
    }
    assert!(lines > 300, "{lines}");
    for module in [&b"\0asm\x01\0\0\0\x02\x07\x01\x01m\x01f\0\0\x08\x01\x07"[..], b"", b"\0asm"] {
        assert!(schema.is_of(&Value::read(&dump(&["--json"], module).1)));
    }
}

#[test]
fn other_values_are_not_of_the_schema() {
    let schema = schema();
    let schema = Schema(&schema, &schema);
    let (_, out, _) = dump(&["--json"], &component(FUNCTION));
    assert!(schema.is_of(&Value::read(&out)));
    for (part, other) in [
        ("\"version\":1", "\"version\":2"),
        ("\"file\":\"-\",", ""),
        ("\"id\":7", "\"id\":\"7\""),
        ("\"id\":7", "\"id\":256"),
        ("\"count\":1", "\"counts\":1"),
        ("{\"Func\":{", "{\"func\":{"),
        ("\"fault\":null", "\"fault\":{\"place\":1}"),
        ("\"space\":\"type\"", "\"space\":5"),
    ] {
        let other = out.replacen(part, other, 1);
        assert!(other != out && !schema.is_of(&Value::read(&other)), "{other}");
    }
}
