//! The runtime: standard streams, words, and leave to take memory, to wait and to start threads.
use super::memory::Global;
pub use super::standard::Standard;
use super::threads::{Threads, Wait};
use std::fmt;
use std::io::{self, Read, Write};

#[derive(Clone, Copy)]
pub struct HostRuntime;

pub trait AllocGlobal {
    fn alloc(&self) -> Global {
        Global
    }
}

/// Who may end the process: tests.
pub trait Abort {}

/// Why a word doesn't fill the bytes that it is to fill.
pub enum FillError {
    NotPresent,
    TooLong,
}

pub trait Env {
    /// The word of this number in front of the bytes, and its length. The program's name is word 0.
    fn arg(&self, number: usize, bytes: &mut [u8]) -> Result<usize, FillError>;
}

impl AllocGlobal for HostRuntime {}
impl Wait for HostRuntime {}
impl Threads for HostRuntime {}
impl Abort for HostRuntime {}

impl Env for HostRuntime {
    fn arg(&self, number: usize, bytes: &mut [u8]) -> Result<usize, FillError> {
        let word = std::env::args_os().nth(number).ok_or(FillError::NotPresent)?;
        let word = word.as_encoded_bytes();
        bytes.get_mut(..word.len()).ok_or(FillError::TooLong)?.copy_from_slice(word);
        Ok(word.len())
    }
}

impl HostRuntime {
    pub fn stdin(&self) -> Standard {
        Standard::input()
    }

    pub fn stdout(&self) -> Standard {
        Standard::output()
    }
}

pub fn say<R>(_: &R, said: fmt::Arguments<'_>) -> io::Result<()> {
    Standard::output().write_all(std::format!("{said}\n").as_bytes())
}

pub fn read_to_string<R: Read>(_: Global, mut reader: R) -> io::Result<String> {
    let mut text = String::new();
    reader.read_to_string(&mut text)?;
    Ok(text)
}

/// `expect` of those who may end the process.
pub trait ExpectBy<T> {
    fn expect_by<R: ?Sized>(self, rt: &R, why: &str) -> T;
}

impl<T> ExpectBy<T> for Option<T> {
    fn expect_by<R: ?Sized>(self, _: &R, why: &str) -> T {
        self.expect(why)
    }
}

impl<T, E> ExpectBy<T> for Result<T, E> {
    fn expect_by<R: ?Sized>(self, _: &R, why: &str) -> T {
        self.ok().expect(why)
    }
}
