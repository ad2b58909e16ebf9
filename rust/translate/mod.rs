//! Rattle to Rust, token by token: what only the prover reads is left out, and paths of the toolchain's library go to the kit.
//!
//! Each line keeps its number, so a panic, a debugger and a profiler name the line of the .rt file. What isn't known here is an error.
mod attributes;
mod changed;
mod checked;
mod enum_errors;
mod left_out;
mod tokens;
mod walk;

#[cfg(test)]
mod tests;

use tokens::{Kind, Token};
use walk::Walk;

/// What isn't known, and the line where it stands.
#[derive(Debug, PartialEq)]
pub struct Unknown {
    pub line: usize,
    pub what: String,
}

/// What each module has in front: names that are known without an import.
const PRELUDE: &str = "use crate::kit::prelude::*; ";

/// The module in plain Rust, as one of the crate that holds them all.
pub fn translate(text: &str, name: &str) -> Result<String, Unknown> {
    let mut walk = Walk::new(text, name)?;
    walk.out.push_str(PRELUDE);
    while walk.at < walk.tokens.len() {
        walk.step()?;
    }
    checked::check(&walk)?;
    Ok(walk.out)
}

impl Walk<'_> {
    fn step(&mut self) -> Result<(), Unknown> {
        let Token { kind, text, .. } = self.tokens[self.at];
        match (kind, text) {
            // (a module isn't the beginning of its file here)
            (Kind::Gap, _) if text.starts_with("//!") => {
                self.out.push_str("//");
                self.at += 1;
            }
            (Kind::Mark, "#") => return self.attribute(),
            (Kind::Mark, "}") => {
                self.keep();
                self.put_behind();
            }
            (Kind::Mark, mark) if !mark.is_ascii() => return self.unknown("a mark of clauses outside of them"),
            (Kind::Word, _) => return self.word(text),
            _ => self.keep(),
        }
        Ok(())
    }

    /// What is to stand behind the brace that was just written.
    fn put_behind(&mut self) {
        while let Some((_, text)) = self.behind.pop_if(|(place, _)| *place < self.at) {
            self.out.push_str(&text);
        }
    }
}
