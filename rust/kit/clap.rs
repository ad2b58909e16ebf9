//! Words of a command line: options with a value, flags, and one word.
use super::memory::{AllocError, Global};

#[derive(Clone, Copy, PartialEq)]
pub enum ArgAction {
    /// It has one value.
    Set,
    /// It has none.
    SetTrue,
}

pub struct Arg<'a> {
    id: &'a str,
    long: Option<&'a str>,
    action: ArgAction,
    required: bool,
}

impl<'a> Arg<'a> {
    pub fn new(_: Global, id: &'a str) -> Self {
        Arg { id, long: None, action: ArgAction::Set, required: false }
    }

    pub fn long(mut self, name: &'a str) -> Self {
        self.long = Some(name);
        self
    }

    pub fn required(mut self, required: bool) -> Self {
        self.required = required;
        self
    }

    pub fn action(mut self, action: ArgAction) -> Self {
        self.action = action;
        self
    }
}

pub struct Command<'a> {
    args: Vec<Arg<'a>>,
}

pub mod error {
    #[derive(Clone, Copy, Debug, PartialEq, Eq)]
    pub enum ErrorKind {
        OutOfMemory,
        UnknownArgument,
        TooManyValues,
        InvalidValue,
        ArgumentConflict,
        MissingRequiredArgument,
    }
}

use error::ErrorKind;

pub struct Error(ErrorKind);

impl Error {
    pub fn kind(&self) -> ErrorKind {
        self.0
    }
}

/// What was found of each argument, by its id: its value, or nothing for a flag.
pub struct ArgMatches<'a> {
    found: Vec<(&'a str, Option<&'a str>)>,
}

impl<'a> ArgMatches<'a> {
    pub fn get_str(&self, id: &str) -> Option<&'a str> {
        self.found.iter().find(|one| one.0 == id)?.1
    }

    pub fn get_flag(&self, id: &str) -> bool {
        self.found.iter().any(|one| one.0 == id)
    }

    fn add(&mut self, id: &'a str, value: Option<&'a str>) -> Result<(), Error> {
        if self.get_flag(id) {
            return Err(Error(ErrorKind::ArgumentConflict));
        }
        self.found.try_reserve(1).map_err(|_| Error(ErrorKind::OutOfMemory))?;
        self.found.push((id, value));
        Ok(())
    }
}

impl<'a> Command<'a> {
    pub fn new(_: Global, _: &'a str) -> Self {
        Command { args: Vec::new() }
    }

    pub fn no_binary_name(self, _: bool) -> Self {
        self
    }

    pub fn disable_help_flag(self, _: bool) -> Self {
        self
    }

    pub fn disable_version_flag(self, _: bool) -> Self {
        self
    }

    pub fn arg(mut self, arg: Arg<'a>) -> Result<Self, AllocError> {
        self.args.try_reserve(1)?;
        self.args.push(arg);
        Ok(self)
    }

    pub fn try_get_matches_from(&self, words: &'a [&'a str]) -> Result<ArgMatches<'a>, Error> {
        let mut matches = ArgMatches { found: Vec::new() };
        let (mut words, mut only_values) = (words.iter(), false);
        while let Some(word) = words.next() {
            let option = if only_values { None } else { word.strip_prefix("--") };
            if option == Some("") {
                only_values = true;
            } else if let Some(option) = option {
                let (name, attached) = option.split_once('=').map_or((option, None), |(name, value)| (name, Some(value)));
                let Some(arg) = self.args.iter().find(|arg| arg.long == Some(name)) else { return Err(Error(ErrorKind::UnknownArgument)) };
                let value = match (arg.action, attached) {
                    (ArgAction::SetTrue, Some(_)) => return Err(Error(ErrorKind::TooManyValues)),
                    (ArgAction::SetTrue, None) => None,
                    (ArgAction::Set, Some(value)) => Some(value),
                    (ArgAction::Set, None) => match words.next() {
                        Some(value) if *value == "-" || !value.starts_with('-') => Some(*value),
                        _ => return Err(Error(ErrorKind::InvalidValue)),
                    },
                };
                matches.add(arg.id, value)?;
            } else if !only_values && word.len() > 1 && word.starts_with('-') {
                return Err(Error(ErrorKind::UnknownArgument));
            } else {
                let Some(arg) = self.args.iter().find(|arg| arg.long.is_none()) else { return Err(Error(ErrorKind::UnknownArgument)) };
                matches.add(arg.id, Some(word))?;
            }
        }
        if self.args.iter().any(|arg| arg.required && !matches.get_flag(arg.id)) {
            return Err(Error(ErrorKind::MissingRequiredArgument));
        }
        Ok(matches)
    }
}

impl From<AllocError> for Error {
    fn from(_: AllocError) -> Self {
        Error(ErrorKind::OutOfMemory)
    }
}
