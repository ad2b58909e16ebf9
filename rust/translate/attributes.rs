//! Attributes: those that Rust has stay, those of the prover go, and a derive keeps what Rust derives.
use super::Unknown;
use super::walk::Walk;

/// Attributes that Rust has too.
const ATTRIBUTES: [&str; 7] = ["inline", "test", "allow", "must_use", "cold", "repr", "cfg"];

/// What a derive names and Rust doesn't derive.
const NOT_DERIVED: [&str; 2] = ["Drop", "Error"];

impl Walk<'_> {
    /// `#[..]` or `#![..]`.
    pub fn attribute(&mut self) -> Result<(), Unknown> {
        let mark = self.next(self.at);
        let bracket = if self.text(mark) == "!" { self.next(mark) } else { mark };
        let (end, name) = (self.closing(bracket)?, self.next(bracket));
        match self.text(name) {
            "tactic" => self.leave_out(end),
            "error" if !self.behind.is_empty() => self.leave_out(end),
            "derive" => self.derive(name, end)?,
            known if ATTRIBUTES.contains(&known) => {
                self.is_test |= known == "test";
                self.keep_to(end);
            }
            _ => return self.unknown(&format!("an attribute that isn't known, {:?},", self.text(name))),
        }
        Ok(())
    }

    /// `#[derive(..)]`; with `Error` the enum behind it says its texts.
    fn derive(&mut self, name: usize, end: usize) -> Result<(), Unknown> {
        let list: String = (self.next(name) + 1..end - 1).map(|it| self.text(it)).collect();
        let names: Vec<&str> = list.split(',').map(|one| one.trim().trim_start_matches("thiserror::")).filter(|one| !one.is_empty()).collect();
        let kept: Vec<&str> = names.iter().copied().filter(|one| !NOT_DERIVED.contains(one)).collect();
        if names.contains(&"Error") {
            let shown = self.shown(end)?;
            self.behind.push(shown);
        }
        let has_all = kept.len() == names.len();
        if has_all {
            self.keep_to(end);
            return Ok(());
        }
        if kept.is_empty() { self.leave_out(end) } else { self.skip(end) }
        if !kept.is_empty() {
            self.out.push_str(&format!("#[derive({})]", kept.join(", ")));
        }
        Ok(())
    }
}
