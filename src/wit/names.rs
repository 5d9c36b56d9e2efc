//! Names in WIT.

use crate::view::NameView;
use core::cmp::Ordering;
use core::fmt::{self, Display};

/// The keywords of WIT, sorted.
const KEYWORDS: [&str; 43] = [
    "as",
    "async",
    "bool",
    "borrow",
    "char",
    "constructor",
    "enum",
    "error-context",
    "export",
    "f32",
    "f64",
    "flags",
    "from",
    "func",
    "future",
    "import",
    "include",
    "interface",
    "list",
    "map",
    "option",
    "own",
    "package",
    "record",
    "resource",
    "result",
    "s16",
    "s32",
    "s64",
    "s8",
    "static",
    "stream",
    "string",
    "tuple",
    "type",
    "u16",
    "u32",
    "u64",
    "u8",
    "use",
    "variant",
    "with",
    "world",
];

/// A name, with `%` before it if it is a keyword.
pub struct Id<'a>(pub &'a str);

impl Display for Id<'_> {
    fn fmt(&self, f: &mut fmt::Formatter<'_>) -> fmt::Result {
        let mark = if KEYWORDS.binary_search(&self.0).is_ok() { "%" } else { "" };
        write!(f, "{mark}{}", self.0)
    }
}

/// A name of a type: a number tells those apart that are used under the same name.
#[derive(Clone, Copy, PartialEq)]
pub struct TypeName<'a> {
    pub text: &'a str,
    pub number: u32,
}

impl<'a> From<&'a str> for TypeName<'a> {
    fn from(text: &'a str) -> Self {
        Self { text, number: 0 }
    }
}

impl Display for TypeName<'_> {
    fn fmt(&self, f: &mut fmt::Formatter<'_>) -> fmt::Result {
        match self.number {
            0 => Id(self.text).fmt(f),
            number => write!(f, "{}-n{number}", self.text),
        }
    }
}

/// Compares names as if they had no capital letters.
pub fn compare(name: &str, other: &str) -> Ordering {
    let lower = |byte: u8| byte.to_ascii_lowercase();
    name.bytes().map(lower).cmp(other.bytes().map(lower))
}

/// Returns the order of two names that must differ: a method and a static function of one resource
/// have names alike.
pub fn compare_labels(name: &str, other: &str) -> Ordering {
    let ((kind, rest), (other, of)) = (label(name), label(other));
    kind.cmp(other).then_with(|| compare(rest, of))
}

/// Splits a name into the kind of function that it is of, and the rest.
fn label(name: &str) -> (&str, &str) {
    match name.split_once(']') {
        Some(("[static", rest)) => ("[method", rest),
        Some((kind, rest)) => (kind, rest),
        None => ("", name),
    }
}

/// Returns the resource that a function is of, by its name, and its name there.
pub fn function_of(name: &str) -> Option<(&str, &str)> {
    let (_, name) = name.strip_prefix('[')?.split_once(']')?;
    Some(name.split_once('.').unwrap_or((name, "")))
}

/// Returns whether it is a name of WIT: words with hyphens between them, each of small letters and
/// digits or of capital letters and digits, the first of which begins with a letter.
pub fn is_id(name: &str) -> bool {
    let of = |word: &str, is_letter: fn(&u8) -> bool| {
        word.bytes().all(|byte| is_letter(&byte) || byte.is_ascii_digit())
    };
    let is_word = |word: &str| {
        !word.is_empty() && (of(word, u8::is_ascii_lowercase) || of(word, u8::is_ascii_uppercase))
    };
    name.starts_with(|first: char| first.is_ascii_alphabetic()) && name.split('-').all(is_word)
}

/// A word of a version.
#[derive(Clone, Copy)]
struct Word {
    len: usize,
    first: u8,
    /// Its value; `None` if it isn't a number of 64 bits.
    value: Option<u64>,
    has_letters: bool,
}

impl Word {
    const EMPTY: Self = Self { len: 0, first: 0, value: Some(0), has_letters: false };

    fn push(&mut self, byte: u8) {
        if self.len == 0 {
            self.first = byte;
        }
        self.len += 1;
        self.has_letters |= !byte.is_ascii_digit();
        let digit = u64::from(byte.wrapping_sub(b'0'));
        self.value = self.value.and_then(|value| value.checked_mul(10)?.checked_add(digit));
    }

    /// Returns whether it is a word of one of the three numbers (0 to 2), of what is before the
    /// release (3) or of the build (4).
    fn is_of(&self, part: u8) -> bool {
        let has_zero = !self.has_letters && self.first == b'0' && self.len > 1;
        match part {
            0..=2 => self.len > 0 && !self.has_letters && !has_zero && self.value.is_some(),
            3 => self.len > 0 && !has_zero,
            _ => self.len > 0,
        }
    }
}

/// Returns whether it is a semantic version.
fn is_version(version: impl Iterator<Item = u8>) -> bool {
    let (mut part, mut word) = (0_u8, Word::EMPTY);
    for byte in version {
        let next = match (part, byte) {
            (0 | 1, b'.') => Some(part + 1),
            (2, b'-') => Some(3),
            (2 | 3, b'+') => Some(4),
            (3 | 4, b'.') => Some(part),
            _ => None,
        };
        match next {
            Some(next) if word.is_of(part) => (part, word) = (next, Word::EMPTY),
            None if byte.is_ascii_alphanumeric() || byte == b'-' => word.push(byte),
            _ => return false,
        }
    }
    part >= 2 && word.is_of(part)
}

/// The name and the version of a package.
#[derive(Clone, Copy)]
pub struct Package<'a> {
    pub namespace: &'a str,
    pub name: &'a str,
    /// The version and its suffix; both are empty if it has none.
    version: [&'a str; 2],
}

impl<'a> Package<'a> {
    fn version(&self) -> impl Iterator<Item = u8> + use<'a> {
        self.version[0].bytes().chain(self.version[1].bytes())
    }

    /// Writes `@` and the version, if it has one.
    pub fn put_version(&self, f: &mut fmt::Formatter<'_>) -> fmt::Result {
        let [version, suffix] = self.version;
        if version.is_empty() { Ok(()) } else { write!(f, "@{version}{suffix}") }
    }
}

impl Ord for Package<'_> {
    fn cmp(&self, other: &Self) -> Ordering {
        let names = (self.namespace, self.name).cmp(&(other.namespace, other.name));
        names.then_with(|| self.version().cmp(other.version()))
    }
}

impl PartialOrd for Package<'_> {
    fn partial_cmp(&self, other: &Self) -> Option<Ordering> {
        Some(self.cmp(other))
    }
}

impl PartialEq for Package<'_> {
    fn eq(&self, other: &Self) -> bool {
        self.cmp(other).is_eq()
    }
}

impl Eq for Package<'_> {}

impl Display for Package<'_> {
    fn fmt(&self, f: &mut fmt::Formatter<'_>) -> fmt::Result {
        write!(f, "{}:{}", Id(self.namespace), Id(self.name))?;
        self.put_version(f)
    }
}

/// A package and an interface in it: `a:b@1.0.0` and `c` of `a:b/c@1.0.0`.
pub fn interface<'a>(name: &NameView<'a>) -> Option<(Package<'a>, &'a str)> {
    let (front, rest) = name.name.split_once('/')?;
    let (namespace, package) = front.split_once(':')?;
    let (interface, version) = match (rest.split_once('@'), name.version_suffix) {
        (Some((interface, version)), suffix) => (interface, [version, suffix.unwrap_or_default()]),
        (None, None) => (rest, ["", ""]),
        (None, Some(_)) => return None,
    };
    let is_small = |name: &str| is_id(name) && !name.contains(|letter: char| letter.is_uppercase());
    let package = Package { namespace, name: package, version };
    let has_version = rest.contains('@');
    let is_one = is_small(namespace)
        && is_small(package.name)
        && is_id(interface)
        && (!has_version || is_version(package.version()));
    is_one.then_some((package, interface))
}
