//! The whole program as a call.
use crate::crates::ccr_base::{List, Name, OpenGate, OutOfMemory, name_of};
use crate::crates::ccr_cli::run_ccr;
use crate::crates::ccr_io::{StdSink, StdSource};
use crate::kit::memory::Global;
use crate::kit::streams::HostRuntime;
use std::io::{Read, Write};
use std::process::ExitCode;

/// With what the program ends (docs/CODES.md).
#[derive(Clone, Copy, Debug, PartialEq, Eq, Hash)]
#[repr(u8)]
pub enum Status {
    /// All is well.
    Done = 0,
    /// The words ask for nothing.
    Usage = 1,
    /// The input isn't of its form.
    Refused = 2,
    /// The input can't be read.
    ReadFault = 3,
    /// The output can't be written: a prefix of it may be.
    WriteFault = 4,
    /// No memory was left.
    OutOfMemory = 5,
    /// A run is well, and a task in it was shed.
    Shed = 6,
    /// The output that was judged has a fault.
    Illegal = 7,
    /// The input is too long.
    TooLong = 8,
}

impl Status {
    /// The exit status.
    pub fn number(self) -> u8 {
        self as u8
    }

    fn of(number: u8) -> Self {
        match number {
            0 => Status::Done,
            1 => Status::Usage,
            2 => Status::Refused,
            3 => Status::ReadFault,
            4 => Status::WriteFault,
            6 => Status::Shed,
            7 => Status::Illegal,
            8 => Status::TooLong,
            _ => Status::OutOfMemory,
        }
    }
}

impl From<Status> for ExitCode {
    fn from(status: Status) -> Self {
        ExitCode::from(status.number())
    }
}

/// Does what the program does with these words: reads its input, where the words want one, and writes its output.
///
/// ```
/// let mut output = Vec::new();
/// let status = ccr::answer(&["check"], &b"ccr 1\nport a\n"[..], &mut output);
/// assert_eq!((status, &output[..]), (ccr::Status::Done, &b"ccr 1\nbudget 10000\nport a\ndone 0\n"[..]));
/// ```
pub fn answer(words: &[impl AsRef<[u8]>], input: impl Read, output: impl Write) -> Status {
    match names(words) {
        Ok(names) => Status::of(run_ccr(&HostRuntime, names.as_slice(), &mut StdSource::new(input), &mut StdSink::new(output), &OpenGate)),
        Err(OutOfMemory) => Status::OutOfMemory,
    }
}

fn names(words: &[impl AsRef<[u8]>]) -> Result<List<Name>, OutOfMemory> {
    let mut names = List::new(Global);
    for word in words {
        names.add(name_of(Global, word.as_ref())?)?;
    }
    Ok(names)
}
