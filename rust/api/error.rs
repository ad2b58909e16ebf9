//! Why a call has no answer.
use super::sentences::{self, Text};
use crate::crates::ccr_base::OutOfMemory;
use std::fmt;

/// Why a call has no answer: what kind of reason, where in the text, and a sentence for people.
#[derive(Clone, Copy, Debug, PartialEq, Eq)]
pub struct Error {
    kind: ErrorKind,
    /// The line and the code, of a text that isn't of its form.
    place: Option<(u32, u8)>,
    sentence: &'static str,
}

/// The kind of an [`Error`].
#[derive(Clone, Copy, Debug, PartialEq, Eq, Hash)]
#[non_exhaustive]
pub enum ErrorKind {
    /// The wiring is refused.
    Refused,
    /// What was to be judged is no history.
    Malformed,
    /// The text has more bytes than may be read.
    TooLong,
    /// There are more workers than a run may have.
    TooManyWorkers,
    /// No memory was left.
    OutOfMemory,
}

impl Error {
    pub(crate) fn refused(line: u32, code: u8) -> Self {
        Error { kind: ErrorKind::Refused, place: Some((line, code)), sentence: sentences::of_code(Text::Wiring, code) }
    }

    pub(crate) fn malformed(line: u32, code: u8) -> Self {
        Error { kind: ErrorKind::Malformed, place: Some((line, code)), sentence: sentences::of_history_code(code) }
    }

    /// The kind of text is limited to so many bytes, as the sentence says.
    pub(crate) fn too_long(sentence: &'static str) -> Self {
        Error { kind: ErrorKind::TooLong, place: None, sentence }
    }

    pub(crate) fn too_many_workers() -> Self {
        Error { kind: ErrorKind::TooManyWorkers, place: None, sentence: "a run has at most 16 workers" }
    }

    pub(crate) fn out_of_memory() -> Self {
        Error { kind: ErrorKind::OutOfMemory, place: None, sentence: sentences::of_status(5) }
    }

    /// What kind of reason it is.
    pub fn kind(&self) -> ErrorKind {
        self.kind
    }

    /// The first offending line, from 1, where a text is refused or no history.
    pub fn line(&self) -> Option<u32> {
        self.place.map(|(line, _)| line)
    }

    /// The code of what is wrong with that line (docs/CODES.md).
    pub fn code(&self) -> Option<u8> {
        self.place.map(|(_, code)| code)
    }

    /// What is wrong, in words.
    pub fn sentence(&self) -> &'static str {
        self.sentence
    }
}

impl fmt::Display for Error {
    fn fmt(&self, f: &mut fmt::Formatter<'_>) -> fmt::Result {
        match self.place {
            Some((line, code)) => write!(f, "line {line}: {} (code {code})", self.sentence),
            None => f.write_str(self.sentence),
        }
    }
}

impl std::error::Error for Error {}

impl From<OutOfMemory> for Error {
    fn from(_: OutOfMemory) -> Self {
        Error::out_of_memory()
    }
}
