//! The program: its words, the files that they name or standard input, standard output, and the status that it ends with.
//!
//! What is answered is the library's. What people are told of it stands on standard error, and nowhere where `CCR_QUIET` is set.
#![deny(unsafe_code)]

mod encoding;
mod files;
mod help;
mod nearest;
mod told;
mod words;

use ccr::{Standard, Status, answer};
use files::Input;
use std::ffi::OsString;
use std::io::{IsTerminal, stdin};
use std::process::ExitCode;
use told::{Last, say};
use words::Words;

fn main() -> ExitCode {
    let given: Vec<OsString> = std::env::args_os().skip(1).collect();
    let is_told = std::env::var_os("CCR_QUIET").is_none_or(|value| value.is_empty());
    let words = Words::of(&given);
    let opened = if words.off.is_some() { Ok(Input::standard(is_told)) } else { Input::of(&words.files, is_told) };
    let mut input = match opened {
        Ok(input) => input,
        Err(why) => return refuse_file(&why, is_told).into(),
    };
    if is_told && input.is_standard() && words.reads() && stdin().is_terminal() {
        say(format_args!("reading from the terminal: Ctrl-D at the beginning of a line ends the text"));
    }
    let mut output = Last::new(Standard::output());
    let asked: Vec<&[u8]> = words.kept.iter().map(|word| word.as_encoded_bytes()).collect();
    let status = answer(&asked, &mut input, &mut output);
    if is_told {
        told::tell(status, &words, output.end(), &input);
    }
    status.into()
}

/// A file that can't be read: nothing is asked for.
fn refuse_file(why: &str, is_told: bool) -> Status {
    if is_told {
        say(format_args!("{why}"));
    }
    Status::ReadFault
}
