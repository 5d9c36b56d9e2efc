//! A lexer of its own, that knows nothing of the eraser's.

/// A token: the line that it begins in, its text, and whether documentation stands before it.
#[derive(Clone, Debug, PartialEq, Eq)]
pub struct Token {
    pub line: usize,
    pub text: String,
    pub is_documented: bool,
}

/// The tokens of a text without its comments. A `::` is one.
pub fn lex(text: &str) -> Vec<Token> {
    let chars: Vec<char> = text.chars().collect();
    let (mut tokens, mut at, mut line) = (Vec::new(), 0, 1);
    let mut is_documented = false;
    while at < chars.len() {
        let begin = at;
        at = end(&chars, begin);
        let text: String = chars[begin..at].iter().collect();
        let lines = text.matches('\n').count();
        if !text.trim().is_empty() && !text.starts_with("//") {
            tokens.push(Token { line, text, is_documented });
            is_documented = false;
        } else {
            is_documented |= text.starts_with("///") || text.starts_with("//!");
        }
        line += lines;
    }
    tokens
}

/// Where the token ends that begins here.
fn end(chars: &[char], begin: usize) -> usize {
    let is_word = |at: usize| chars.get(at).is_some_and(|c| *c == '_' || c.is_alphanumeric());
    let next = chars.get(begin + 1);
    let mut at = begin + 1;
    match chars[begin] {
        '/' if next == Some(&'/') => {
            while at < chars.len() && chars[at] != '\n' {
                at += 1;
            }
        }
        ':' if next == Some(&':') => at += 1,
        '"' => at = quoted(chars, at),
        '\'' if next == Some(&'\\') => at = 1 + closing_quote(chars, begin + 3),
        '\'' if chars.get(begin + 2) == Some(&'\'') => at = begin + 3,
        _ if is_word(begin) => {
            while is_word(at) {
                at += 1;
            }
        }
        _ => {}
    }
    at
}

/// Where the quote stands that ends a character with a backslash.
fn closing_quote(chars: &[char], from: usize) -> usize {
    (from..chars.len()).find(|at| chars[*at] == '\'').unwrap_or(from)
}

/// Where the text ends whose first letter is here.
fn quoted(chars: &[char], mut at: usize) -> usize {
    while chars[at] != '"' {
        at += if chars[at] == '\\' { 2 } else { 1 };
    }
    at + 1
}
