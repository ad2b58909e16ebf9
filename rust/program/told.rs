//! What is told on standard error of the end of a run: what was refused on which line, or what a status is.
use crate::encoding::other_kind;
use crate::files::Input;
use crate::help::HELP;
use crate::words::Words;
use ccr::Status;
use ccr::sentences::{self, Text};
use std::fmt::{self, Write as _};
use std::io::{self, Write};

/// The most of a line that is shown.
const LONGEST: usize = 160;

/// How many bytes the last two lines of an output have at most, where they tell of a refusal.
const ROOM: usize = 300;

/// A writer that keeps the end of what was written.
pub struct Last<W> {
    to: W,
    end: [u8; ROOM],
    length: usize,
}

impl<W: Write> Last<W> {
    pub fn new(to: W) -> Self {
        Last { to, end: [0; ROOM], length: 0 }
    }

    /// The end of what was written, which is ASCII.
    pub fn end(&self) -> &str {
        str::from_utf8(&self.end[..self.length]).unwrap_or("")
    }

    fn keep(&mut self, bytes: &[u8]) {
        let bytes = &bytes[bytes.len().saturating_sub(ROOM)..];
        let stays = self.length.min(ROOM - bytes.len());
        self.end.copy_within(self.length - stays..self.length, 0);
        self.end[stays..stays + bytes.len()].copy_from_slice(bytes);
        self.length = stays + bytes.len();
    }
}

impl<W: Write> Write for Last<W> {
    fn write(&mut self, bytes: &[u8]) -> io::Result<usize> {
        let count = self.to.write(bytes)?;
        self.keep(&bytes[..count]);
        Ok(count)
    }

    fn flush(&mut self) -> io::Result<()> {
        self.to.flush()
    }
}

/// A line on standard error, in one write; what is beyond its room is cut. Where it can't be written nothing is said.
pub fn say(what: fmt::Arguments<'_>) {
    put(format_args!("ccr: {what}\n"));
}

/// Takes no memory: it is called where none may be left.
fn put(what: fmt::Arguments<'_>) {
    let mut room = [0; 2048];
    let mut left = &mut room[..];
    let _ = left.write_fmt(what);
    let unused = left.len();
    let _ = io::stderr().write_all(&room[..room.len() - unused]);
}

/// Tells what the status means, and of a refusal the line.
pub fn tell(status: Status, words: &Words, end: &str, input: &Input) {
    if status == Status::Usage && words.asks_help {
        let _ = io::stderr().write_all(HELP.as_bytes());
    } else if let (Status::Usage, Some(off)) = (status, &words.off) {
        say(format_args!("{off}"));
    } else if let Some(found) = Found::of(words.command, end) {
        say(format_args!("{found}"));
        if let Some(text) = input.copy() {
            show(text, found.line);
        }
    } else {
        let sentence = sentences::of_status(status.number());
        if !sentence.is_empty() {
            say(format_args!("{sentence} (status {})", status.number()));
        }
    }
}

/// What the end of an output tells of a line.
struct Found {
    line: usize,
    sentence: &'static str,
    /// What the number is, and the number.
    number: Option<(&'static str, u8)>,
}

impl Found {
    fn of(command: Option<&str>, end: &str) -> Option<Self> {
        let mut words = end.lines().nth_back(1)?.split(' ');
        let (word, line) = (words.next()?, words.next()?.parse().ok()?);
        let number = words.next().map_or(Some(0), |number| number.parse().ok())?;
        let text = if matches!(command, Some("service" | "expand")) { Text::Service } else { Text::Wiring };
        let (sentence, kind) = match word {
            "refused" => (sentences::of_code(text, number), "code"),
            "malformed" => (sentences::of_history_code(number), "code"),
            "illegal" => (sentences::of_rule(number), "rule"),
            "misreported" => (sentences::of_misreport(), ""),
            _ => return None,
        };
        Some(Found { line, sentence, number: (!kind.is_empty()).then_some((kind, number)) })
    }
}

impl fmt::Display for Found {
    fn fmt(&self, f: &mut fmt::Formatter<'_>) -> fmt::Result {
        write!(f, "line {}: {}", self.line, self.sentence)?;
        self.number.map_or(Ok(()), |(kind, number)| write!(f, " ({kind} {number})"))
    }
}

/// Says of what other kind the text is, or shows the line with its number.
fn show(text: &[u8], line: usize) {
    if let Some(other) = other_kind(text) {
        say(format_args!("{other}"));
    } else if let Some(found) = line.checked_sub(1).and_then(|before| text.split(|byte| *byte == b'\n').nth(before)) {
        put(format_args!("    {line} | {}\n", Plain(found.trim_ascii())));
    }
}

/// Bytes as printable characters, cut where they are too many.
struct Plain<'a>(&'a [u8]);

impl fmt::Display for Plain<'_> {
    fn fmt(&self, f: &mut fmt::Formatter<'_>) -> fmt::Result {
        for byte in &self.0[..self.0.len().min(LONGEST)] {
            match byte {
                b'\t' => f.write_str(" "),
                b' '..=b'~' => f.write_char(char::from(*byte)),
                other => write!(f, "\\x{other:02x}"),
            }?;
        }
        f.write_str(if self.0.len() > LONGEST { " .." } else { "" })
    }
}

#[cfg(test)]
mod tests {
    use super::*;

    #[test]
    fn the_end_of_what_was_written_is_kept() {
        let mut last = Last::new(Vec::new());
        for part in ["a".repeat(250), "b".repeat(250), String::from("c"), "d".repeat(400)] {
            last.write_all(part.as_bytes()).expect("memory");
        }
        assert_eq!(last.end(), "d".repeat(300));
        last.write_all(b"refused 1 2\n").expect("memory");
        assert_eq!(last.end(), format!("{}refused 1 2\n", "d".repeat(288)));
    }

    #[test]
    fn refusals_are_told_in_words() {
        let told = |command, end| Found::of(Some(command), end).map(|found| found.to_string());
        assert_eq!(told("check", "refused 8 4\ndone 2\n").as_deref(), Some("line 8: a word is missing or too many (code 4)"));
        assert_eq!(told("expand", "refused 1 11\ndone 2\n").as_deref(), Some("line 1: a service without an operation (code 11)"));
        assert_eq!(told("verify", "misreported 24\ndone 7\n").as_deref(), Some("line 24: the report or the last line isn't what the history gives"));
        assert_eq!(told("check", "port refused\ndone 0\n"), None);
        assert_eq!(told("check", "done 2\n"), None);
    }

    #[test]
    fn lines_are_shown_as_printable_characters() {
        assert_eq!(Plain(b"port\tcaf\xc3\xa9").to_string(), "port caf\\xc3\\xa9");
        assert_eq!(Plain(&[b'a'; 200]).to_string(), format!("{} ..", "a".repeat(160)));
        assert_eq!(Plain(&[b'a'; 160]).to_string(), "a".repeat(160));
    }
}
