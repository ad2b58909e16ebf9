//! What only the prover reads, and is left out: ghost items, clauses, `prove!` and implementations of its traits.
use super::Unknown;
use super::walk::Walk;

/// Traits that only the prover knows, or that every type has here.
const TRAITS: [&str; 2] = ["Model", "Drop"];

impl<'a> Walk<'a> {
    /// `ghost use ..;`, or a ghost field or item: a name, `=` or `:`, and braces.
    pub fn ghost(&mut self, ghost: usize) -> Result<(), Unknown> {
        let name = self.next(ghost);
        if self.text(name) == "use" {
            let Some(end) = self.find(name, ";") else { return self.unknown("no end of a ghost use") };
            self.leave_out(end);
            return Ok(());
        }
        let sign = self.next(name);
        let brace = self.next(sign);
        if !self.is_word(name) || !["=", ":"].contains(&self.text(sign)) || self.text(brace) != "{" {
            return self.unknown("a ghost item of a form that isn't known");
        }
        let end = self.next(self.closing(brace)?);
        if ![";", ","].contains(&self.text(end)) {
            return self.unknown("a ghost item without its end");
        }
        self.leave_out(end);
        Ok(())
    }

    /// A clause: its word, maybe a name, and braces. `next` is what stands behind its word.
    pub fn clause(&mut self, next: usize) -> Result<(), Unknown> {
        let brace = if self.text(next) == "{" { next } else { self.next(next) };
        if self.text(brace) != "{" {
            return self.unknown("a clause of a form that isn't known");
        }
        let end = self.closing(brace)?;
        self.leave_out(end);
        Ok(())
    }

    /// `prove!(..);`
    pub fn statement(&mut self, mark: usize) -> Result<(), Unknown> {
        let close = self.closing(self.next(mark))?;
        let end = self.next(close);
        if self.text(end) != ";" {
            return self.unknown("a `prove!` that is no statement");
        }
        self.leave_out(end);
        Ok(())
    }

    /// Whether the implementation here is of such a trait.
    pub fn is_for_prover(&self) -> bool {
        self.trait_of().is_some_and(|name| TRAITS.contains(&name))
    }

    /// The whole implementation.
    pub fn implementation(&mut self) -> Result<(), Unknown> {
        let Some(brace) = self.find(self.at, "{") else { return self.unknown("an implementation without braces") };
        let end = self.closing(brace)?;
        self.leave_out(end);
        Ok(())
    }

    /// The last word of the trait that is implemented here, if it is one of a trait.
    fn trait_of(&self) -> Option<&'a str> {
        let (mut open, mut last) = (0, "");
        for it in self.at + 1..self.tokens.len() {
            match self.text(it) {
                "<" => open += 1,
                ">" if self.before(it) != "-" => open -= 1,
                "{" | ";" => return None,
                "for" if open == 0 => return Some(last),
                word if open == 0 && self.is_word(it) => last = word,
                _ => {}
            }
        }
        None
    }
}
