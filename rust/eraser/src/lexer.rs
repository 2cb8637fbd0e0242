//! The tokens of a Rattle source: Rust's, and in clauses the prover's.
use crate::fault::Fault;

/// What a token is.
#[derive(Clone, Copy, Debug, PartialEq, Eq)]
pub enum Kind {
    Space,
    Comment,
    Text,
    Letter,
    Lifetime,
    Word,
    Number,
    Mark,
}

/// A token, by its place in the text: the bytes from `start` on and before `end`.
#[derive(Clone, Copy, Debug, PartialEq, Eq)]
pub struct Token {
    pub kind: Kind,
    pub start: usize,
    pub end: usize,
}

/// All tokens of a text, one after another, spaces and comments too.
pub fn tokens(name: &str, text: &str) -> Result<Vec<Token>, Fault> {
    let mut found: Vec<Token> = Vec::new();
    let mut start = 0;
    while start < text.len() {
        let after_word = found.last().map_or(false, |t| is_part_of_name(t, text));
        let (kind, length) = first_token(&text[start..], after_word)
            .ok_or_else(|| Fault::at(name, text, start, "a comment or a text without end"))?;
        let end = start + length;
        found.push(Token { kind, start, end });
        start = end;
    }
    Ok(found)
}

/// Whether a quote behind this token belongs to a name of the prover, as in `h'` and `h''`.
fn is_part_of_name(token: &Token, text: &str) -> bool {
    token.kind == Kind::Word || (token.kind == Kind::Mark && &text[token.start..token.end] == "'")
}

fn first_token(rest: &str, after_word: bool) -> Option<(Kind, usize)> {
    let first = rest.chars().next()?;
    if first.is_whitespace() {
        return Some((Kind::Space, length_while(rest, char::is_whitespace)));
    }
    if rest.starts_with("//") {
        return Some((Kind::Comment, rest.find('\n').unwrap_or(rest.len())));
    }
    if rest.starts_with("/*") {
        return block_comment(rest).map(|length| (Kind::Comment, length));
    }
    if let Some(prefix) = raw_prefix(rest) {
        return raw_text(rest, prefix).map(|length| (Kind::Text, length));
    }
    for prefix in ["\"", "b\"", "c\""] {
        if rest.starts_with(prefix) {
            return quoted(rest, prefix.len(), '"').map(|length| (Kind::Text, length));
        }
    }
    if first == '\'' && after_word {
        return Some((Kind::Mark, 1));
    }
    if first == '\'' || rest.starts_with("b'") {
        return Some(letter_or_lifetime(rest));
    }
    if first == '«' {
        return rest.find('»').map(|at| (Kind::Word, at + '»'.len_utf8()));
    }
    if first == '_' || first.is_alphabetic() {
        return Some((Kind::Word, length_while(rest, is_of_word)));
    }
    if first.is_ascii_digit() {
        return Some((Kind::Number, number(rest)));
    }
    Some((Kind::Mark, first.len_utf8()))
}

fn is_of_word(c: char) -> bool {
    c == '_' || c.is_alphanumeric()
}

fn length_while(rest: &str, holds: impl Fn(char) -> bool) -> usize {
    rest.find(|c| !holds(c)).unwrap_or(rest.len())
}

fn block_comment(rest: &str) -> Option<usize> {
    let (mut depth, mut at) = (0, 0);
    while at < rest.len() {
        if rest[at..].starts_with("/*") {
            depth += 1;
            at += 2;
        } else if rest[at..].starts_with("*/") {
            depth -= 1;
            at += 2;
            if depth == 0 {
                return Some(at);
            }
        } else {
            at += rest[at..].chars().next()?.len_utf8();
        }
    }
    None
}

/// The length of `r`, `br` or `cr` where a raw text begins.
fn raw_prefix(rest: &str) -> Option<usize> {
    let prefix = ["r", "br", "cr"]
        .iter()
        .find(|p| rest.starts_with(**p))?
        .len();
    let hashes = length_while(&rest[prefix..], |c| c == '#');
    rest[prefix + hashes..].starts_with('"').then(|| prefix)
}

fn raw_text(rest: &str, prefix: usize) -> Option<usize> {
    let hashes = length_while(&rest[prefix..], |c| c == '#');
    let begin = prefix + hashes + 1;
    let close = format!("\"{}", "#".repeat(hashes));
    rest[begin..]
        .find(&close)
        .map(|at| begin + at + close.len())
}

/// The length of what begins with `prefix` bytes and ends with `close`, a backslash hiding what follows it.
fn quoted(rest: &str, prefix: usize, close: char) -> Option<usize> {
    let mut hidden = false;
    for (at, c) in rest[prefix..].char_indices() {
        if hidden {
            hidden = false;
        } else if c == '\\' {
            hidden = true;
        } else if c == close {
            return Some(prefix + at + c.len_utf8());
        }
    }
    None
}

/// A letter in quotes; else a lifetime; else a quote alone.
fn letter_or_lifetime(rest: &str) -> (Kind, usize) {
    let prefix = if rest.starts_with('b') { 2 } else { 1 };
    let mut inner = rest[prefix..].chars();
    match (inner.next(), inner.next()) {
        (Some('\\'), _) => {
            quoted(rest, prefix, '\'').map_or((Kind::Mark, 1), |n| (Kind::Letter, n))
        }
        (Some(c), Some('\'')) if c != '\n' => (Kind::Letter, prefix + c.len_utf8() + 1),
        (Some(c), _) if prefix == 1 && (c == '_' || c.is_alphabetic()) => {
            (Kind::Lifetime, 1 + length_while(&rest[1..], is_of_word))
        }
        _ if prefix == 2 => (Kind::Word, 1),
        _ => (Kind::Mark, 1),
    }
}

fn number(rest: &str) -> usize {
    let whole = length_while(rest, is_of_word);
    let after = &rest[whole..];
    let has_fraction =
        after.starts_with('.') && after[1..].starts_with(|c: char| c.is_ascii_digit());
    if has_fraction {
        whole + 1 + length_while(&after[1..], is_of_word)
    } else {
        whole
    }
}
