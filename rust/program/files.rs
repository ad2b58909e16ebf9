//! What is read: standard input, or the files that the words name, one behind the other.
use crate::told::say;
use ccr::Standard;
use std::ffi::{OsStr, OsString};
use std::fs::File;
use std::io::{self, Read};
use std::vec::IntoIter;

/// The input, and a copy of what was read of it, so that a line of it can be shown.
pub struct Input {
    source: Source,
    copy: Option<Vec<u8>>,
}

/// Where the bytes come from.
enum Source {
    Standard(Standard),
    Files(Files),
}

/// Files, with a line feed behind each but the last where it ends without one.
struct Files {
    now: Option<Opened>,
    then: IntoIter<Opened>,
    /// The byte that was read last of a file that can be read again.
    last: Option<u8>,
}

struct Opened {
    name: OsString,
    file: File,
    is_regular: bool,
}

impl Input {
    pub fn standard(is_copied: bool) -> Self {
        Input { source: Source::Standard(Standard::input()), copy: is_copied.then(Vec::new) }
    }

    /// These files, or standard input where there are none; or why one can't be read.
    pub fn of(names: &[OsString], is_copied: bool) -> Result<Self, String> {
        if names.is_empty() {
            return Ok(Input::standard(is_copied));
        }
        let opened: Result<Vec<Opened>, String> = names.iter().map(|name| open(name)).collect();
        let mut then = opened?.into_iter();
        let files = Files { now: then.next(), then, last: None };
        Ok(Input { source: Source::Files(files), copy: is_copied.then(Vec::new) })
    }

    pub fn is_standard(&self) -> bool {
        matches!(self.source, Source::Standard(_))
    }

    /// What was read, where it is kept.
    pub fn copy(&self) -> Option<&[u8]> {
        self.copy.as_deref()
    }

    /// Keeps what was read. Where there is no room for it, no line is shown.
    fn keep(&mut self, bytes: &[u8]) {
        if let Some(copy) = &mut self.copy {
            if copy.try_reserve(bytes.len()).is_ok() {
                copy.extend_from_slice(bytes);
            } else {
                self.copy = None;
            }
        }
    }
}

fn open(name: &OsStr) -> Result<Opened, String> {
    let unread = |fault: io::Error| {
        let name = name.to_string_lossy();
        match fault.kind() {
            io::ErrorKind::PermissionDenied => format!("'{name}' can't be read: permission denied"),
            _ => format!("'{name}' can't be read: {fault}"),
        }
    };
    let file = File::open(name).map_err(unread)?;
    let is_regular = file.metadata().map_err(unread)?.is_file();
    Ok(Opened { name: name.to_os_string(), file, is_regular })
}

impl Read for Input {
    fn read(&mut self, bytes: &mut [u8]) -> io::Result<usize> {
        let is_told = self.copy.is_some();
        let count = match &mut self.source {
            Source::Standard(stream) => stream.read(bytes),
            Source::Files(files) => files.read(bytes, is_told),
        }?;
        self.keep(&bytes[..count]);
        Ok(count)
    }
}

impl Files {
    fn read(&mut self, bytes: &mut [u8], is_told: bool) -> io::Result<usize> {
        while let (Some(now), false) = (&mut self.now, bytes.is_empty()) {
            let count = now.file.read(bytes).inspect_err(|fault| {
                if is_told && fault.kind() != io::ErrorKind::Interrupted {
                    say(format_args!("'{}' can't be read: {fault}", now.name.to_string_lossy()));
                }
            })?;
            if count > 0 {
                self.last = now.is_regular.then_some(bytes[count - 1]);
                return Ok(count);
            }
            self.now = self.then.next();
            let last = self.last.take();
            if self.now.is_some() && last.is_some_and(|last| last != b'\n') {
                bytes[0] = b'\n';
                return Ok(1);
            }
        }
        Ok(0)
    }
}
