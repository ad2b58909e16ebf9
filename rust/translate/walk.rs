//! The way through the tokens: what stands around a place, where a bracket closes, and what is written.
use super::Unknown;
use super::tokens::{Kind, Token, tokens};

/// Where the translation of a file is, and what it has written.
pub struct Walk<'a> {
    pub tokens: Vec<Token<'a>>,
    pub at: usize,
    pub out: String,
    /// The name of the crate.
    pub name: &'a str,
    /// Where the closing brace of an enum of errors stands, and what is to stand behind it.
    pub behind: Vec<(usize, String)>,
    /// Whether the function that comes next is a test.
    pub is_test: bool,
    /// The first and the last token of each part that is left out or written anew.
    pub left_out: Vec<(usize, usize)>,
}

impl<'a> Walk<'a> {
    pub fn new(text: &'a str, name: &'a str) -> Result<Self, Unknown> {
        Ok(Walk { tokens: tokens(text)?, at: 0, out: String::new(), name, behind: Vec::new(), is_test: false, left_out: Vec::new() })
    }

    /// The place of the first token behind this one that is no gap.
    pub fn next(&self, at: usize) -> usize {
        (at + 1..self.tokens.len()).find(|&it| self.tokens[it].kind != Kind::Gap).unwrap_or(self.tokens.len())
    }

    /// The text of the token there; none behind the last.
    pub fn text(&self, at: usize) -> &'a str {
        self.tokens.get(at).map_or("", |token| token.text)
    }

    pub fn is_word(&self, at: usize) -> bool {
        self.tokens.get(at).is_some_and(|token| token.kind == Kind::Word)
    }

    /// The text of the nearest token before this one that is no gap.
    pub fn before(&self, at: usize) -> &'a str {
        (0..at).rev().find(|&it| self.tokens[it].kind != Kind::Gap).map_or("", |it| self.tokens[it].text)
    }

    /// The place of the first token from this one on that has the text.
    pub fn find(&self, at: usize, text: &str) -> Option<usize> {
        (at..self.tokens.len()).find(|&it| self.text(it) == text)
    }

    /// The place of the bracket that closes the one here.
    pub fn closing(&self, at: usize) -> Result<usize, Unknown> {
        let mut open = 0;
        for it in at..self.tokens.len() {
            match self.text(it) {
                "{" | "(" | "[" => open += 1,
                "}" | ")" | "]" => open -= 1,
                _ => {}
            }
            if open == 0 {
                return Ok(it);
            }
        }
        self.unknown("a bracket that isn't closed")
    }

    /// What stands here isn't known.
    pub fn unknown<T>(&self, what: &str) -> Result<T, Unknown> {
        let at = self.at.min(self.tokens.len().saturating_sub(1));
        let line = self.tokens.get(at).map_or(1, |token| token.line);
        Err(Unknown { line, what: format!("{what} at '{}'", self.text(at)) })
    }

    /// Writes the token here as it stands.
    pub fn keep(&mut self) {
        self.out.push_str(self.text(self.at));
        self.at += 1;
    }

    /// Writes the tokens up to that one as they stand.
    pub fn keep_to(&mut self, last: usize) {
        while self.at <= last {
            self.keep();
        }
    }

    /// Leaves out all up to that token, but the ends of lines. Documentation above it becomes plain comments.
    pub fn leave_out(&mut self, last: usize) {
        self.undocument();
        self.skip(last);
    }

    /// Leaves out all up to that token, but the ends of lines.
    pub fn skip(&mut self, last: usize) {
        for it in self.at..=last {
            self.out.extend(self.tokens[it].text.chars().filter(|&c| c == '\n'));
        }
        self.left_out.push((self.at, last));
        self.at = last + 1;
    }

    /// Makes plain comments of the lines of documentation right above, which would document nothing.
    fn undocument(&mut self) {
        let mut begin = self.out.rfind('\n').map_or(0, |at| at + 1);
        while let Some(end) = begin.checked_sub(1) {
            let start = self.out[..end].rfind('\n').map_or(0, |at| at + 1);
            let line = &self.out[start..end];
            let indent = line.len() - line.trim_start().len();
            if !line.trim_start().starts_with("///") {
                break;
            }
            self.out.replace_range(start + indent..start + indent + 3, "// ");
            begin = start;
        }
    }
}
