//! An enum of errors whose variants say their texts: what Rust needs to show it stands behind its brace.
use super::Unknown;
use super::walk::Walk;

impl<'a> Walk<'a> {
    /// Where the braces of the enum behind this place close, and how it is shown.
    pub fn shown(&self, from: usize) -> Result<(usize, String), Unknown> {
        let Some(word) = self.find(from, "enum") else { return self.unknown("an error that is no enum") };
        let name = self.text(self.next(word));
        let brace = self.next(self.next(word));
        let close = self.closing(brace)?;
        let (mut arms, mut at) = (String::new(), self.next(brace));
        while at < close {
            let (text, variant) = self.text_of_variant(at)?;
            let (fields, argument, end) = self.fields(variant)?;
            arms.push_str(&format!("{name}::{}{fields} => write!(f, {text}{argument}), ", self.text(variant)));
            at = if self.text(end) == "," { self.next(end) } else { end };
        }
        let shows = format!("fn fmt(&self, f: &mut ::std::fmt::Formatter<'_>) -> ::std::fmt::Result {{ match self {{ {arms} }} }}");
        Ok((close, format!(" impl ::std::fmt::Display for {name} {{ {shows} }} impl ::std::error::Error for {name} {{}}")))
    }

    /// The text of `#[error("..")]` here, and the place of the variant behind it.
    fn text_of_variant(&self, at: usize) -> Result<(&'a str, usize), Unknown> {
        let bracket = self.next(at);
        let word = self.next(bracket);
        let text = self.text(self.next(self.next(word)));
        if self.text(at) != "#" || self.text(word) != "error" || !text.starts_with('"') {
            return self.unknown("a variant of an error without its text");
        }
        let variant = self.next(self.closing(bracket)?);
        if !self.is_word(variant) {
            return self.unknown("an error with more than its text");
        }
        Ok((text, variant))
    }

    /// What the variant's fields are called in a pattern, what is handed on of them, and the place behind the variant.
    fn fields(&self, variant: usize) -> Result<(String, &'static str, usize), Unknown> {
        let open = self.next(variant);
        match self.text(open) {
            "{" => {
                let close = self.closing(open)?;
                let is_field = |&it: &usize| self.is_word(it) && self.text(self.next(it)) == ":";
                let names: Vec<&str> = (open + 1..close).filter(is_field).map(|it| self.text(it)).collect();
                Ok((format!(" {{ {} }}", names.join(", ")), "", self.next(close)))
            }
            "(" => Ok((String::from("(first)"), ", first", self.next(self.closing(open)?))),
            _ => Ok((String::new(), "", open)),
        }
    }
}
