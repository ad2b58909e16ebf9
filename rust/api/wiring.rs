//! A wiring, read from its text.
use super::error::Error;
use super::run::{Run, Workers};
use crate::crates::ccr_wiretext::{MAX_WIRING_TEXT, ReadRefused, read_wiring, write_wiring};
use crate::crates::ccr_wiring;
use crate::kit::memory::Global;
use std::fmt;
use std::str::FromStr;

/// What may happen at run time. Threads may share it.
pub struct Wiring(pub(super) ccr_wiring::Wiring);

impl Wiring {
    /// Reads the text of a wiring (docs/FORMATS.md): at most 1 MiB.
    ///
    /// ```
    /// let refused = ccr::Wiring::read("ccr 1\nport 1st\n").unwrap_err();
    /// assert_eq!((refused.line(), refused.code()), (Some(2), Some(14)));
    /// assert_eq!(refused.to_string(), "line 2: a name is 1 to 16 bytes: a letter, then letters, digits, '_' or '-' (code 14)");
    /// ```
    ///
    /// # Errors
    ///
    /// Where the text is refused, too long, or no memory is left.
    pub fn read(text: impl AsRef<[u8]>) -> Result<Self, Error> {
        let text = text.as_ref();
        if text.len() > MAX_WIRING_TEXT {
            return Err(Error::too_long("the wiring has more than 1,048,576 bytes"));
        }
        match read_wiring(Global, text) {
            Ok(wiring) => Ok(Wiring(wiring)),
            Err(ReadRefused::At { line, code }) => Err(Error::refused(line, code)),
            Err(ReadRefused::Memory) => Err(Error::out_of_memory()),
        }
    }

    /// The canonical text: what is read from it is this wiring again.
    ///
    /// ```
    /// let wiring = ccr::Wiring::read("# of no use\nccr  1\nport\ta\n")?;
    /// assert_eq!(wiring.text()?, "ccr 1\nbudget 10000\nport a\n");
    /// # Ok::<(), ccr::Error>(())
    /// ```
    ///
    /// # Errors
    ///
    /// Where no memory is left.
    pub fn text(&self) -> Result<String, Error> {
        Ok(ascii(write_wiring(Global, &self.0)?.into_vec().into_std()))
    }

    /// Runs it: each poster and each worker in a thread of its own, and what is left when they rest in this one. That it
    /// returns is proved of [`Workers::None`] alone.
    ///
    /// ```
    /// # let wiring = ccr::Wiring::read("ccr 1\nport a\nposter p\npost a 7\nend\n")?;
    /// let run = wiring.run(ccr::Workers::None)?;
    /// assert_eq!(run.history(), "history 1\npost s0.0 a 7\n");
    /// assert!(run.text().ends_with("done 0\n"));
    /// # Ok::<(), ccr::Error>(())
    /// ```
    ///
    /// # Errors
    ///
    /// Where there are more than 16 workers, or no memory is left.
    pub fn run(&self, workers: Workers) -> Result<Run, Error> {
        Run::of(&self.0, workers)
    }
}

impl FromStr for Wiring {
    type Err = Error;

    fn from_str(text: &str) -> Result<Self, Error> {
        Wiring::read(text)
    }
}

impl fmt::Debug for Wiring {
    fn fmt(&self, f: &mut fmt::Formatter<'_>) -> fmt::Result {
        f.debug_struct("Wiring").finish_non_exhaustive()
    }
}

/// The bytes as a text. All that is written is ASCII.
pub(super) fn ascii(bytes: Vec<u8>) -> String {
    String::from_utf8(bytes).expect("what is written is ASCII")
}
