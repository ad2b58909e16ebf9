//! What a run was.
use super::error::Error;
use super::wiring::ascii;
use crate::crates::ccr_actor::actor_count;
use crate::crates::ccr_base::{MAX_WORKERS, OpenGate};
use crate::crates::ccr_model::Totals;
use crate::crates::ccr_opening::first_history;
use crate::crates::ccr_report::counted_text;
use crate::crates::ccr_telling::tell_to_end;
use crate::crates::ccr_wiring::Wiring;
use crate::kit::memory::Global;
use crate::kit::streams::HostRuntime;
use std::fmt;

/// Who does the work of a run.
#[derive(Clone, Copy, Debug, PartialEq, Eq, Hash)]
pub enum Workers {
    /// The calling thread does all, and each run is the same.
    None,
    /// So many workers, and each poster, have threads of their own: at most 16 workers. None is the same as [`Workers::None`].
    Threads(u32),
}

/// Four workers, as the program has them.
impl Default for Workers {
    fn default() -> Self {
        Workers::Threads(4)
    }
}

/// What happened: the history, event by event, and what it adds up to.
#[derive(Clone, Debug, PartialEq, Eq)]
pub struct Run {
    text: String,
    /// Where the report begins, and where it ends.
    report: (usize, usize),
    counts: Counts,
}

/// How often each thing happened, in all: the line `total` of the report (docs/FORMATS.md).
#[derive(Clone, Copy, Debug, Default, PartialEq, Eq)]
#[non_exhaustive]
pub struct Counts {
    /// Messages that were posted.
    pub posted: u64,
    /// Messages that a firing took.
    pub taken: u64,
    /// Messages that a port still holds.
    pub held: u64,
    /// Firings of branches and sites.
    pub fired: u64,
    /// Segments of tasks that ended well.
    pub done: u64,
    /// Segments that failed.
    pub failed: u64,
    /// Segments that ended early for lack of budget.
    pub shed: u64,
    /// Segments that ended in a wait for a message.
    pub yielded: u64,
    /// Tasks that a teardown cut.
    pub cut: u64,
    /// Tasks that a queue dropped.
    pub dropped: u64,
    /// Tasks that neither ended nor were cut or dropped.
    pub left: u64,
}

impl From<&Totals> for Counts {
    fn from(totals: &Totals) -> Self {
        let &Totals { posted, taken, held, fired, done, failed, shed, yielded, cut, dropped, unended: left } = totals;
        Counts { posted, taken, held, fired, done, failed, shed, yielded, cut, dropped, left }
    }
}

/// The last line of a run's output.
pub(super) fn last_line(counts: &Counts) -> &'static str {
    if counts.shed == 0 { "done 0\n" } else { "done 6\n" }
}

impl Run {
    pub(super) fn of(wiring: &Wiring, workers: Workers) -> Result<Self, Error> {
        let count = match workers {
            Workers::None => 0,
            Workers::Threads(count) => count,
        };
        if count > MAX_WORKERS {
            return Err(Error::too_many_workers());
        }
        let first = first_history(&HostRuntime, &OpenGate, wiring, count, None)?;
        let told = tell_to_end(Global, wiring, actor_count(wiring, count), first)?;
        let report = counted_text(Global, wiring, &told.counts)?;
        let counts = Counts::from(&told.counts.totals);
        let mut text = told.text.into_vec().into_std();
        let (begin, end) = (text.len(), text.len() + report.len());
        let last = last_line(&counts);
        text.try_reserve_exact(report.len() + last.len()).map_err(|_| Error::out_of_memory())?;
        text.extend_from_slice(report.as_slice());
        text.extend_from_slice(last.as_bytes());
        Ok(Run { text: ascii(text), report: (begin, end), counts })
    }

    /// The whole output, byte for byte what the program's `run` writes: history, report and last line.
    pub fn text(&self) -> &str {
        &self.text
    }

    /// The lines of the history.
    pub fn history(&self) -> &str {
        &self.text[..self.report.0]
    }

    /// The lines of the report.
    pub fn report(&self) -> &str {
        &self.text[self.report.0..self.report.1]
    }

    /// What the history adds up to.
    pub fn counts(&self) -> &Counts {
        &self.counts
    }
}

impl fmt::Display for Run {
    fn fmt(&self, f: &mut fmt::Formatter<'_>) -> fmt::Result {
        f.write_str(&self.text)
    }
}
