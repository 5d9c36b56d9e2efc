//! Splits a file of Rattle into tokens.
//!
//! A clause or a ghost item is one token.

use super::Refused;
use super::antt::{block_len, use_len};

/// The kind of a token.
#[derive(Clone, Copy, Debug, PartialEq, Eq)]
pub enum Kind {
    /// Spaces and line ends.
    Space,
    /// A comment, up to the end of its line.
    Comment,
    /// A name or a keyword.
    Word,
    /// A string, a character, a number or a lifetime.
    Literal,
    /// One character of punctuation.
    Mark,
    /// A clause or a ghost item, whole.
    Ghost,
}

/// A piece of a file.
pub struct Token<'a> {
    /// The kind.
    pub kind: Kind,
    /// The line that it begins in, from 1 on.
    pub line: usize,
    /// Its text.
    pub text: &'a str,
}

/// Splits a file into tokens. Each byte is in one of them.
pub fn tokens(source: &str) -> Result<Vec<Token<'_>>, Refused> {
    let mut found: Vec<Token<'_>> = Vec::new();
    let (mut at, mut line) = (0, 1);
    while at < source.len() {
        let rest = &source[at..];
        let (kind, len) = first_token(rest).map_err(|why| (line, why))?;
        let text = &rest[..len];
        let is_prefixed = kind == Kind::Literal && text.starts_with(['"', '\'']);
        if is_prefixed && found.last().is_some_and(|last| last.kind == Kind::Word) {
            return Err((line, "a text with a prefix that is not known"));
        }
        found.push(Token { kind, line, text });
        line += text.matches('\n').count();
        at += len;
    }
    Ok(found)
}

/// Returns the kind of the first token, and its number of bytes.
fn first_token(rest: &str) -> Result<(Kind, usize), &'static str> {
    let first = rest.chars().next().unwrap_or(' ');
    let run = |is: fn(char) -> bool| rest.find(|c| !is(c)).unwrap_or(rest.len());
    match first {
        _ if is_blank(first) => Ok((Kind::Space, run(is_blank))),
        _ if rest.starts_with("//") => Ok((Kind::Comment, rest.find('\n').unwrap_or(rest.len()))),
        _ if rest.starts_with("/*") => Err("a block comment"),
        _ if rest.starts_with("r\"") || rest.starts_with("r#") => Err("a raw text or name"),
        '"' => text_len(rest, 1),
        'b' if rest.starts_with("b\"") => text_len(rest, 2),
        '\'' => character_len(rest, 1),
        'b' if rest.starts_with("b'") => character_len(rest, 2),
        '0'..='9' => Ok((Kind::Literal, run(is_word))),
        _ if first == '_' || first.is_ascii_alphabetic() => word(rest, run(is_word)),
        _ if first.is_ascii_graphic() => Ok((Kind::Mark, 1)),
        _ if first.is_whitespace() || first.is_control() => Err("a blank that is not known"),
        _ => Err("a letter or a sign that is not ASCII"),
    }
}

/// Reads a word of `len` bytes, or the ghost token that it begins.
fn word(rest: &str, len: usize) -> Result<(Kind, usize), &'static str> {
    match &rest[..len] {
        "ghost" => Ok((Kind::Ghost, ghost_len(rest)?)),
        "requires" | "ensures" => Ok((Kind::Ghost, clause_len(rest, len)?)),
        _ => Ok((Kind::Word, len)),
    }
}

/// Returns whether this is a blank for the prover and for Rust.
fn is_blank(c: char) -> bool {
    c == ' ' || c == '\n'
}

/// Returns whether names have this character.
pub fn is_word(c: char) -> bool {
    c == '_' || c.is_ascii_alphanumeric()
}

/// Reads a string, whose first byte is at index `lead`.
fn text_len(rest: &str, lead: usize) -> Result<(Kind, usize), &'static str> {
    let len = quoted_len(&rest[lead..], '"').ok_or("a text without an end")?;
    Ok((Kind::Literal, lead + len))
}

/// Reads a character or a lifetime, whose first letter is at index `lead`.
fn character_len(rest: &str, lead: usize) -> Result<(Kind, usize), &'static str> {
    let quoted = &rest[lead..];
    let is_char = quoted.starts_with('\\') || quoted.chars().nth(1) == Some('\'');
    let len = if is_char { quoted_len(quoted, '\'') } else { quoted.find(|c| !is_word(c)) };
    Ok((Kind::Literal, lead + len.ok_or("a character without an end")?))
}

/// Returns the number of bytes of a string or a character after its first quote.
pub fn quoted_len(quoted: &str, quote: char) -> Option<usize> {
    let mut is_escaped = false;
    for (at, c) in quoted.char_indices() {
        match c {
            _ if is_escaped => is_escaped = false,
            '\\' => is_escaped = true,
            _ if c == quote => return Some(at + 1),
            _ => {}
        }
    }
    None
}

/// Returns the number of bytes of a clause: a keyword of `keyword` bytes, perhaps a `*` and a name,
/// and a block.
fn clause_len(rest: &str, keyword: usize) -> Result<usize, &'static str> {
    let mut at = keyword + usize::from(rest[keyword..].starts_with('*'));
    at += blank_len(&rest[at..]);
    at += rest[at..].find(|c| !is_word(c)).unwrap_or(0);
    at += blank_len(&rest[at..]);
    Ok(at + block_len(&rest[at..])?)
}

/// Returns the number of bytes of a ghost item: a `use`, or a member or a field with its type, its
/// value or both.
fn ghost_len(rest: &str) -> Result<usize, &'static str> {
    let mut at = "ghost".len();
    at += blank_len(&rest[at..]);
    let name = rest[at..].find(|c| !is_word(c)).unwrap_or(0);
    if name == 0 {
        return Err("a ghost item without a name");
    }
    if &rest[at..at + name] == "use" {
        return Ok(at + use_len(&rest[at..])?);
    }
    at += name;
    let mut parts = 0;
    loop {
        at += blank_len(&rest[at..]);
        match rest[at..].chars().next() {
            Some(';' | ',') if parts > 0 => return Ok(at + 1),
            Some(':') if parts == 0 && !rest[at..].starts_with("::") => {}
            Some('=') if parts < 2 && !rest[at..].starts_with("==") => parts = 1,
            _ => return Err("a ghost item that is not known"),
        }
        at += 1 + blank_len(&rest[at + 1..]);
        at += block_len(&rest[at..])?;
        parts += 1;
    }
}

fn blank_len(rest: &str) -> usize {
    rest.find(|c| !is_blank(c)).unwrap_or(rest.len())
}
