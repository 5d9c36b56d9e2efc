//! Finds where the prover's text ends in a clause or a ghost item.
//!
//! The text is antt, the language of definitions and proofs. Its braces are counted. What could
//! hide one of them, or a semicolon, from the prover but not from this count is refused.

use super::lexer::{is_word, quoted_len};

/// What the text of a clause or a ghost item must not have.
const REFUSED: [(&str, &str); 5] = [
    ("{-", "a block comment in a clause"),
    ("-}", "the end of a block comment in a clause"),
    ("--", "a comment in a clause"),
    ("//", "a comment of Rust in a clause"),
    ("/*", "a comment of Rust in a clause"),
];

/// Returns the number of bytes of the block in braces that begins here.
pub fn block_len(rest: &str) -> Result<usize, &'static str> {
    if !rest.starts_with('{') {
        return Err("a clause or a ghost item without a block");
    }
    let (mut depth, mut at) = (0, 0);
    while let Some(next) = rest[at..].chars().next() {
        check(rest, at)?;
        at += next.len_utf8();
        match next {
            '{' => depth += 1,
            '}' if depth == 1 => return Ok(at),
            '}' => depth -= 1,
            '"' => at += text_len(&rest[at..])?,
            '«' => at += name_len(&rest[at..], is_word, '»')?,
            '⟦' => at += name_len(&rest[at..], is_type, '⟧')?,
            _ => {}
        }
    }
    Err("a block without an end")
}

/// Returns the number of bytes up to the semicolon that ends a `ghost use`, with it.
pub fn use_len(rest: &str) -> Result<usize, &'static str> {
    for (at, next) in rest.char_indices() {
        check(rest, at)?;
        match next {
            ';' => return Ok(at + 1),
            '"' | '«' | '⟦' => return Err("more than names in a `ghost use`"),
            _ => {}
        }
    }
    Err("a ghost item without an end")
}

/// Refuses what begins at this byte if braces and semicolons might not count in it.
fn check(text: &str, at: usize) -> Result<(), &'static str> {
    let (before, rest) = text.split_at(at);
    if let Some((_, why)) = REFUSED.iter().find(|(begin, _)| rest.starts_with(begin)) {
        return Err(why);
    }
    match rest.chars().next() {
        Some(' ' | '\n') => Ok(()),
        Some(c) if c.is_whitespace() || c.is_control() => Err("a blank that is not known"),
        Some('\'') if before.ends_with(|c| " \n(){}.;,@\"".contains(c)) => {
            Err("a character in a clause")
        }
        _ => Ok(()),
    }
}

/// Returns the number of bytes of a text after its first quote. It ends in its line.
fn text_len(rest: &str) -> Result<usize, &'static str> {
    let len = quoted_len(rest, '"').ok_or("a text without an end")?;
    if rest[..len].contains('\n') { Err("a text of several lines in a clause") } else { Ok(len) }
}

/// Returns the number of bytes of an escaped name or of a type in brackets, after the first sign.
fn name_len(rest: &str, is_in: fn(char) -> bool, end: char) -> Result<usize, &'static str> {
    let len = rest.find(|c| !is_in(c)).unwrap_or(rest.len());
    let is_closed = rest[len..].starts_with(end);
    if is_closed { Ok(len + end.len_utf8()) } else { Err("a sign in an escaped name or a type") }
}

fn is_type(c: char) -> bool {
    is_word(c) || " <>,:&".contains(c)
}
