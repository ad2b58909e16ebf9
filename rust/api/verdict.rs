//! What is found of an output of a run, whoever made it.
use super::error::Error;
use super::run::{Counts, last_line};
use super::sentences;
use super::wiring::Wiring;
use crate::crates::ccr_report::counted_text;
use crate::crates::ccr_telling::{Judgement, LegalText, judge_text};
use crate::crates::ccr_text::MAX_TEXT;
use crate::crates::ccr_trace::{HistoryCode, HistoryRefused};
use crate::kit::memory::Global;
use std::fmt;

/// What is found of an output of a run.
#[derive(Clone, Copy, Debug, PartialEq, Eq)]
pub enum Verdict {
    /// Each event is allowed after those before it, and the report is the one that is due.
    Legal(Legal),
    /// An event isn't allowed.
    Illegal(Illegal),
    /// The history is legal, and from this line on the report or the last line isn't the one that is due.
    Misreported {
        /// The line of the output, from 1.
        line: u32,
    },
}

/// What else is so of a legal history.
#[derive(Clone, Copy, Debug, PartialEq, Eq)]
pub struct Legal {
    /// Whether every line of the posters was posted (docs/MODEL.md).
    pub complete: bool,
    /// Whether no further event is allowed.
    pub quiet: bool,
}

/// The first event that isn't allowed after those before it.
#[derive(Clone, Copy, Debug, PartialEq, Eq)]
pub struct Illegal {
    line: u32,
    rule: u8,
}

impl Illegal {
    /// The line of the output, from 1.
    pub fn line(&self) -> u32 {
        self.line
    }

    /// The first rule that refuses the event (docs/MODEL.md).
    pub fn rule(&self) -> u8 {
        self.rule
    }

    /// What the rule refuses, in words.
    pub fn sentence(&self) -> &'static str {
        sentences::of_rule(self.rule)
    }
}

impl Verdict {
    /// Whether the output is legal, and its report the one that is due.
    pub fn is_legal(&self) -> bool {
        matches!(self, Verdict::Legal(_))
    }
}

impl fmt::Display for Verdict {
    fn fmt(&self, f: &mut fmt::Formatter<'_>) -> fmt::Result {
        let word = |is: bool| if is { "yes" } else { "no" };
        match self {
            Verdict::Legal(legal) => write!(f, "legal complete {} quiet {}", word(legal.complete), word(legal.quiet)),
            Verdict::Illegal(found) => write!(f, "line {}: {} (rule {})", found.line, found.sentence(), found.rule),
            Verdict::Misreported { line } => write!(f, "line {line}: {}", sentences::of_misreport()),
        }
    }
}

/// Judges an output of a run of this wiring, of this program or of any other: at most 32 MiB. Nothing is run.
///
/// ```
/// use ccr::{Verdict, Wiring, verify};
/// let wiring = Wiring::read("ccr 1\nport a\nposter p\npost a 7\nend\n")?;
/// let report = "report 1\nport a posted 1 taken 0 held 1\n\
///     total posted 1 taken 0 held 1 fired 0 done 0 failed 0 shed 0 yield 0 cut 0 dropped 0 left 0\ndone 0\n";
/// assert!(verify(&wiring, format!("history 1\npost s0.0 a 7\n{report}"))?.is_legal());
///
/// let Verdict::Illegal(found) = verify(&wiring, format!("history 1\npost s0.0 a 8\n{report}"))? else { panic!() };
/// assert_eq!((found.line(), found.rule(), found.sentence()), (2, 1, "this isn't the next line of the poster's script"));
///
/// let malformed = verify(&wiring, "history 1\npost s0.0 a 07\n").unwrap_err();
/// assert_eq!(malformed.to_string(), "line 2: this is no line of a history, or isn't spelled as one (code 1)");
/// # Ok::<(), ccr::Error>(())
/// ```
///
/// # Errors
///
/// Where the text is no history, too long, or no memory is left.
pub fn verify(wiring: &Wiring, text: impl AsRef<[u8]>) -> Result<Verdict, Error> {
    let text = text.as_ref();
    if text.len() > MAX_TEXT {
        return Err(Error::too_long("the output has more than 33,554,432 bytes"));
    }
    if text.is_empty() {
        return Err(Error::malformed(1, HistoryCode::Unfinished.number()));
    }
    match judge_text(Global, &wiring.0, text) {
        Ok(Judgement::Illegal { at, rule }) => Ok(Verdict::Illegal(Illegal { line: at + 2, rule: rule.number() })),
        Ok(Judgement::Legal(found)) => legal(wiring, text, &found),
        Err(HistoryRefused::At { line, code }) => Err(Error::malformed(line, code)),
        Err(HistoryRefused::Memory) => Err(Error::out_of_memory()),
    }
}

/// The history is legal: whether the report and the last line behind it are the ones that are due.
fn legal(wiring: &Wiring, text: &[u8], found: &LegalText) -> Result<Verdict, Error> {
    let report = counted_text(Global, &wiring.0, &found.counts)?;
    let last = last_line(&Counts::from(&found.counts.totals));
    let due = report.as_slice().iter().chain(last.as_bytes());
    Ok(match first_difference(&text[found.rest..], due) {
        Some(lines) => Verdict::Misreported { line: found.lines + 1 + lines },
        None => Verdict::Legal(Legal { complete: found.complete, quiet: found.quiet }),
    })
}

/// How many lines stand before the one where the text first differs from what is due.
fn first_difference<'a>(text: &[u8], due: impl Iterator<Item = &'a u8>) -> Option<u32> {
    let (mut lines, mut text) = (0, text.iter());
    for wanted in due {
        if text.next() != Some(wanted) {
            return Some(lines);
        }
        lines += u32::from(*wanted == b'\n');
    }
    text.next().map(|_| lines)
}
