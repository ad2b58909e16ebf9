//! A text of Rattle as tokens: words, literals, marks, and the gaps between them.
use super::Unknown;

/// What a token is.
#[derive(Clone, Copy, PartialEq)]
pub enum Kind {
    Word,
    Literal,
    Mark,
    /// Blanks and comments.
    Gap,
}

/// A part of the text, and the line where it begins.
#[derive(Clone, Copy)]
pub struct Token<'a> {
    pub kind: Kind,
    pub text: &'a str,
    pub line: usize,
}

/// All tokens of the text: one behind another they are the text again.
pub fn tokens(text: &str) -> Result<Vec<Token<'_>>, Unknown> {
    let (mut all, mut rest, mut line) = (Vec::new(), text, 1);
    while !rest.is_empty() {
        let (kind, length) = first_token(rest);
        let Some(length) = length else { return Err(Unknown { line, what: format!("no end of {:?}", rest.lines().next().unwrap_or("")) }) };
        let (token, behind) = rest.split_at(length);
        all.push(Token { kind, text: token, line });
        line += token.matches('\n').count();
        rest = behind;
    }
    Ok(all)
}

/// What the text begins with, and how many bytes that has, where its end is known.
fn first_token(text: &str) -> (Kind, Option<usize>) {
    let first = text.chars().next().unwrap_or(' ');
    if first.is_whitespace() || text.starts_with("//") || text.starts_with("/*") {
        (Kind::Gap, gap_length(text))
    } else if is_raw(text) {
        (Kind::Literal, None)
    } else if first == '"' || text.starts_with("b\"") || text.starts_with("b'") {
        (Kind::Literal, literal_length(text))
    } else if first == '\'' {
        apostrophe(text)
    } else if first.is_ascii_digit() {
        (Kind::Literal, Some(number_length(text)))
    } else if is_word_start(first) {
        (Kind::Word, Some(word_length(text)))
    } else {
        (Kind::Mark, Some(first.len_utf8()))
    }
}

/// Blanks, a comment up to the end of its line, or one up to its mark.
fn gap_length(text: &str) -> Option<usize> {
    if text.starts_with("//") {
        Some(text.find('\n').unwrap_or(text.len()))
    } else if text.starts_with("/*") {
        text.find("*/").map(|at| at + 2).filter(|end| !text[2..*end].contains("/*"))
    } else {
        Some(text.find(|c: char| !c.is_whitespace()).unwrap_or(text.len()))
    }
}

/// Raw strings, which the sources don't have.
fn is_raw(text: &str) -> bool {
    let behind = text.strip_prefix('b').unwrap_or(text).strip_prefix('r');
    behind.is_some_and(|rest| rest.starts_with('"') || rest.starts_with("#\"") || rest.starts_with("##"))
}

/// A string or a byte, maybe with a `b` in front.
fn literal_length(text: &str) -> Option<usize> {
    let bare = text.strip_prefix('b').unwrap_or(text);
    let quote = bare.chars().next()?;
    Some(text.len() - bare.len() + quoted(bare, quote)?)
}

/// The bytes of a quoted literal that begins with its quote.
fn quoted(text: &str, quote: char) -> Option<usize> {
    let mut escaped = false;
    for (at, c) in text.char_indices().skip(1) {
        match c {
            _ if escaped => escaped = false,
            '\\' => escaped = true,
            _ if c == quote => return Some(at + 1),
            _ => {}
        }
    }
    None
}

/// What begins with an apostrophe: a character, a lifetime, or a mark of a clause.
fn apostrophe(text: &str) -> (Kind, Option<usize>) {
    let mut after = text.chars().skip(1);
    match (after.next(), after.next()) {
        (Some('\\'), _) => (Kind::Literal, quoted(text, '\'')),
        (Some(c), Some('\'')) => (Kind::Literal, Some(c.len_utf8() + 2)),
        (Some(c), _) if is_word_start(c) => (Kind::Literal, Some(1 + word_length(&text[1..]))),
        _ => (Kind::Mark, Some(1)),
    }
}

fn number_length(text: &str) -> usize {
    let whole = word_length(text);
    let mut behind = text[whole..].chars();
    match (behind.next(), behind.next()) {
        (Some('.'), Some(c)) if c.is_ascii_digit() => whole + 1 + word_length(&text[whole + 1..]),
        _ => whole,
    }
}

fn word_length(text: &str) -> usize {
    text.find(|c: char| !c.is_alphanumeric() && c != '_').unwrap_or(text.len())
}

fn is_word_start(c: char) -> bool {
    c.is_alphabetic() || c == '_'
}
