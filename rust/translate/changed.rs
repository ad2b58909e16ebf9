//! What is written otherwise: paths, calls that take an allocator, `main`, and functions that are tests.
use super::Unknown;
use super::walk::Walk;

/// The libraries of the toolchain that the kit stands in for.
const LIBRARIES: [&str; 10] = ["std", "atomic_table", "clap", "indexmap", "itoa", "memchr", "serde_json", "slab", "thiserror", "core"];

/// Methods that take an allocator here, and have a namesake in Rust that takes none.
const WITH_ALLOCATOR: [&str; 4] = ["collect", "to_string", "to_vec", "to_owned"];

impl<'a> Walk<'a> {
    /// A word: of the prover, of a path or a call that is written otherwise, or as it stands.
    pub fn word(&mut self, text: &'a str) -> Result<(), Unknown> {
        let next = self.next(self.at);
        match text {
            "pub" if self.text(next) == "ghost" => return self.ghost(next),
            "ghost" => return self.ghost(self.at),
            "requires" | "ensures" | "decreases" => return self.clause(next),
            "prove" if self.text(next) == "!" => return self.statement(next),
            "impl" if self.is_for_prover() => return self.implementation(),
            "fn" if self.text(next) == "main" => self.out.push_str("pub fn"),
            "fn" if self.is_test => return self.test(next),
            "expect" if self.is_method() && self.has_two_arguments(next)? => self.out.push_str("expect_by"),
            _ if self.is_path(next) => self.first_of_path(text),
            _ if WITH_ALLOCATOR.contains(&text) && self.is_method() && self.has_argument(next) => {
                self.out.push_str(text);
                self.out.push_str("_in");
            }
            _ if !text.is_ascii() => return self.unknown("a word of clauses outside of them"),
            _ => self.out.push_str(text),
        }
        self.at += 1;
        Ok(())
    }

    /// Whether a path begins here: `::` stands behind the word, and not in front of it.
    fn is_path(&self, next: usize) -> bool {
        self.text(next) == ":" && self.text(next + 1) == ":" && self.before(self.at) != ":"
    }

    /// The first word of a path: all crates are modules of one, and the toolchain's libraries are the kit's.
    fn first_of_path(&mut self, text: &str) {
        if text == "crate" {
            self.out.push_str("crate::crates::");
            self.out.push_str(self.name);
        } else {
            let is_crate = text.starts_with("ccr_");
            let place = if is_crate { "crate::crates::" } else if LIBRARIES.contains(&text) { "crate::kit::" } else { "" };
            self.out.push_str(place);
            self.out.push_str(text);
        }
    }

    fn is_method(&self) -> bool {
        self.before(self.at) == "."
    }

    fn has_argument(&self, paren: usize) -> bool {
        self.text(paren) == "(" && self.text(self.next(paren)) != ")"
    }

    /// Whether a call has two arguments or more.
    fn has_two_arguments(&self, paren: usize) -> Result<bool, Unknown> {
        let (mut at, end) = (paren + 1, self.closing(paren)?);
        while at < end {
            match self.text(at) {
                "," => return Ok(true),
                "(" | "[" | "{" => at = self.closing(at)?,
                _ => {}
            }
            at += 1;
        }
        Ok(false)
    }

    /// A test is given a runtime: here it makes one.
    fn test(&mut self, name: usize) -> Result<(), Unknown> {
        self.is_test = false;
        let paren = self.next(name);
        let brace = self.next(self.closing(paren)?);
        if self.text(self.next(paren)) != "rt" || self.text(brace) != "{" {
            return self.unknown("a test of a form that isn't known");
        }
        self.out.push_str(&format!("fn {}() {{ let rt = HostRuntime;", self.text(name)));
        self.skip(brace);
        Ok(())
    }
}
