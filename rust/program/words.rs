//! The words: which of them name files to be read, and what is wrong with them, for people. What they ask for the library decides.
use crate::nearest::nearest;
use std::borrow::Cow;
use std::ffi::OsString;
use std::path::Path;

/// The words that say what is done, each with its options.
const COMMANDS: [(&str, &[&str]); 10] = [
    ("check", &["--json"]),
    ("run", &["--workers", "--schedule", "--json"]),
    ("verify", &[]),
    ("load", &["--workers", "--size", "--json"]),
    ("record", &["--workers"]),
    ("replay", &[]),
    ("steps", &[]),
    ("steady", &[]),
    ("service", &["--workers"]),
    ("expand", &[]),
];

const ALL: &str = "check, run, verify, load, record, replay, steps, steady, service or expand, as in: ccr run --workers 4 < FILE";

/// Where more is said of words.
const MORE: &str = " (ccr --help)";

/// The words of a command line.
#[derive(Default)]
pub struct Words {
    /// Those that the library is given.
    pub kept: Vec<OsString>,
    /// Those that name files, which are read in place of standard input.
    pub files: Vec<OsString>,
    /// The one that says what is done.
    pub command: Option<&'static str>,
    /// What is wrong with them, where something is. Then no file is taken out.
    pub off: Option<String>,
    /// Whether they ask which words there are.
    pub asks_help: bool,
    options: Vec<String>,
    others: Vec<usize>,
}

impl Words {
    pub fn of(given: &[OsString]) -> Self {
        let asks_help = given.first().is_none_or(|first| first == "help");
        let mut words = Words { kept: given.to_vec(), asks_help, ..Words::default() };
        words.read();
        words.take_files();
        words.look_at_options();
        if words.off.is_some() {
            words.kept = given.to_vec();
        }
        words
    }

    /// Whether what they ask for reads something.
    pub fn reads(&self) -> bool {
        self.off.is_none() && self.command != Some("load")
    }

    /// Keeps the first thing that is wrong.
    fn find(&mut self, off: String) {
        self.off.get_or_insert(off);
    }

    fn text(&self, at: usize) -> Option<Cow<'_, str>> {
        self.kept.get(at).map(|word| word.to_string_lossy())
    }

    /// Goes over the words: options with their values, the command, and others.
    fn read(&mut self) {
        let (mut at, mut has_ended) = (0, false);
        while let Some(word) = self.text(at).map(Cow::into_owned) {
            if has_ended || !word.starts_with('-') {
                self.no_option(at, &word);
            } else if word == "--" {
                has_ended = true;
            } else {
                at += usize::from(self.option(at, &word));
            }
            at += 1;
        }
    }

    fn no_option(&mut self, at: usize, word: &str) {
        match (COMMANDS.iter().find(|(command, _)| *command == word), self.command) {
            (None, _) => self.others.push(at),
            (Some(_), Some(first)) => self.find(format!("'{first}' and '{word}': one of them at a time{MORE}")),
            (Some((command, _)), None) => self.command = Some(command),
        }
    }

    /// An option. Whether the next word is its value.
    fn option(&mut self, at: usize, word: &str) -> bool {
        self.asks_help |= ["-h", "--help"].contains(&word);
        let (name, attached) = word.split_once('=').map_or((word, None), |(name, value)| (name, Some(value)));
        if self.options.iter().any(|one| one == name) {
            self.find(format!("{name} stands twice{MORE}"));
        }
        self.options.push(name.to_string());
        let takes_next = attached.is_none() && ["--workers", "--size"].contains(&word);
        let next = self.text(at + 1).map(Cow::into_owned);
        let value = if takes_next { next.as_deref() } else { attached };
        if let Some(off) = off_with_option(name, attached, value.unwrap_or("")) {
            self.find(off);
        }
        takes_next && next.is_some()
    }

    /// Words that are neither options nor commands: files, or what is wrong.
    fn take_files(&mut self) {
        let others = std::mem::take(&mut self.others);
        for &at in &others {
            let name = self.kept[at].to_string_lossy().into_owned();
            if let Some(off) = self.off_with_file(at, &name) {
                self.find(off);
            }
        }
        self.files = others.iter().map(|&at| self.kept[at].clone()).collect();
        others.iter().rev().for_each(|&at| drop(self.kept.remove(at)));
    }

    fn off_with_file(&self, at: usize, name: &str) -> Option<String> {
        let path = Path::new(&self.kept[at]);
        if path.is_dir() {
            Some(format!("'{name}' is a directory"))
        } else if !path.exists() {
            Some(self.off_with_word(name))
        } else if self.command == Some("load") {
            Some(format!("'load' reads nothing: leave out '{name}'{MORE}"))
        } else if self.command.is_none() {
            Some(format!("'{name}' is a file, and a word says what to do with it, as in: ccr run --workers 4 {name}{MORE}"))
        } else {
            None
        }
    }

    /// A word that is no option, no command, and no file.
    fn off_with_word(&self, name: &str) -> String {
        if self.command.is_some() {
            return format!("there is no file '{name}'");
        }
        match nearest(name, COMMANDS.iter().map(|(command, _)| *command)) {
            Some(near) => format!("there is no word '{name}': do you mean '{near}'?{MORE}"),
            None => format!("'{name}' is neither a word nor a file: the words are {ALL}{MORE}"),
        }
    }

    fn look_at_options(&mut self) {
        let Some(command) = self.command else { return self.find(format!("a word is missing: {ALL}{MORE}")) };
        let known = COMMANDS.iter().find(|(name, _)| *name == command).map_or(&[][..], |(_, options)| options);
        if let Some(name) = self.options.iter().find(|name| !known.contains(&name.as_str())) {
            self.find(format!("'{command}' has no option {name}{MORE}"));
        }
    }
}

/// What is wrong with an option of that name.
fn off_with_option(name: &str, attached: Option<&str>, value: &str) -> Option<String> {
    match name {
        "--workers" if !is_number(value, 0, 16) => Some(format!("--workers wants a number from 0 to 16, and '{value}' is none{MORE}")),
        "--size" if !is_number(value, 1, 10_000) => Some(format!("--size wants a number from 1 to 10000, and '{value}' is none{MORE}")),
        "--json" | "--schedule" => attached.map(|_| format!("{name} takes no value{MORE}")),
        "--workers" | "--size" => None,
        "-" => Some(format!("'-' is no file: where none is named standard input is read, and a file of that name is ./-{MORE}")),
        _ => Some(match nearest(name, ["--workers", "--schedule", "--json", "--size", "--help"]) {
            Some(near) => format!("there is no option '{name}': do you mean '{near}'?{MORE}"),
            None => format!("there is no option '{name}': there are --workers N, --schedule, --json, --size N{MORE}"),
        }),
    }
}

/// Whether it is decimal digits of a number from the least to the most.
fn is_number(digits: &str, least: u32, most: u32) -> bool {
    !digits.is_empty() && digits.bytes().all(|digit| digit.is_ascii_digit()) && digits.parse().is_ok_and(|number: u32| least <= number && number <= most)
}

#[cfg(test)]
mod tests {
    use super::*;

    fn words(given: &[&str]) -> Words {
        Words::of(&given.iter().map(OsString::from).collect::<Vec<_>>())
    }

    /// What is wrong, up to its colon.
    fn off(given: &[&str]) -> String {
        words(given).off.expect("it is wrong").trim_end_matches(MORE).split(": ").next().unwrap_or("").to_string()
    }

    #[test]
    fn files_are_taken_out_where_all_is_well() {
        let found = words(&["run", "Cargo.toml", "--workers", "4", "--", "crates.txt"]);
        assert_eq!((found.kept, found.files), (vec!["run".into(), "--workers".into(), "4".into(), "--".into()], vec!["Cargo.toml".into(), "crates.txt".into()]));
        assert_eq!(words(&["run", "Cargo.toml", "--wrong"]).kept.len(), 3);
        assert!(words(&["load", "--size=00010"]).off.is_none());
    }

    #[test]
    fn help_is_asked_for_by_words_of_its_own() {
        let asks = |given: &[&str]| words(given).asks_help;
        assert_eq!([asks(&[]), asks(&["help"]), asks(&["run", "-h"]), asks(&["--help"])], [true; 4]);
        assert_eq!([asks(&["run"]), asks(&["run", "--", "--help"]), asks(&["run", "help"])], [false; 3]);
    }

    #[test]
    fn the_first_thing_that_is_wrong_is_told() {
        assert_eq!(off(&["check", "run"]), "'check' and 'run'");
        assert_eq!(off(&["nothing.ccr", "check"]), "there is no file 'nothing.ccr'");
        assert_eq!(off(&["nothing.ccr"]), "'nothing.ccr' is neither a word nor a file");
        assert_eq!(off(&["rnu"]), "there is no word 'rnu'");
        assert_eq!(off(&["check", "crates"]), "'crates' is a directory");
        assert_eq!(off(&["load", "Cargo.toml"]), "'load' reads nothing");
        assert_eq!(off(&["Cargo.toml"]), "'Cargo.toml' is a file, and a word says what to do with it, as in");
        assert_eq!(off(&["run", "--workers", "17"]), "--workers wants a number from 0 to 16, and '17' is none");
        assert_eq!(off(&["run", "--workers"]), "--workers wants a number from 0 to 16, and '' is none");
        assert_eq!(off(&["run", "--json=1"]), "--json takes no value");
        assert_eq!(off(&["run", "--json", "--json"]), "--json stands twice");
        assert_eq!(off(&["check", "--workers=1"]), "'check' has no option --workers");
        assert_eq!(off(&["--json"]), "a word is missing");
        assert_eq!(off(&["run", "-x"]), "there is no option '-x'");
    }
}
