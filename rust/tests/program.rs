//! The program as a process: standard output and status whatever the words, what is told on standard error, and the files that are read.
use std::io::Write;
use std::path::{Path, PathBuf};
use std::process::{Command, Stdio};

const TOP: &str = env!("CARGO_MANIFEST_DIR");
const USAGE: &str = "usage: ccr check|run|verify|load|record|replay|steps|steady|service|expand [--workers N] [--schedule] [--json] [--size N]\ndone 1\n";
const LEGAL: &str = "legal complete yes quiet yes\ndone 0\n";

/// What a process wrote, what it told, and its status.
#[derive(Debug)]
struct Ended {
    written: String,
    told: String,
    status: Option<i32>,
}

fn program(words: &[&str]) -> Command {
    let mut command = Command::new(env!("CARGO_BIN_EXE_ccr"));
    command.args(words).current_dir(TOP).env_remove("CCR_QUIET");
    command
}

fn ended(mut command: Command, input: &[u8]) -> Ended {
    command.stdin(Stdio::piped()).stdout(Stdio::piped()).stderr(Stdio::piped());
    let mut child = command.spawn().expect("it starts");
    let _ = child.stdin.take().expect("a pipe").write_all(input);
    let output = child.wait_with_output().expect("it ends");
    let text = |bytes| String::from_utf8(bytes).expect("ASCII");
    Ended { written: text(output.stdout), told: text(output.stderr), status: output.status.code() }
}

fn ccr(words: &[&str]) -> Ended {
    ended(program(words), b"")
}

/// A file of this test's own.
fn scratch(name: &str, bytes: &[u8]) -> PathBuf {
    let path = Path::new(env!("CARGO_TARGET_TMPDIR")).join(name);
    std::fs::write(&path, bytes).expect("it can be written");
    path
}

fn read(path: &str) -> String {
    std::fs::read_to_string(Path::new(TOP).join(path)).expect("it can be read")
}

#[test]
fn words_that_ask_for_nothing_are_usage() {
    for words in [&["--help"][..], &["-h"], &["help"], &[]] {
        let found = ccr(words);
        assert_eq!((found.written.as_str(), found.status), (USAGE, Some(1)));
        assert!(found.told.starts_with("usage: ccr WORD [OPTIONS] [FILE ..]"), "{}", found.told);
    }
    let found = ccr(&["check", "run"]);
    assert_eq!((found.written.as_str(), found.status), (USAGE, Some(1)));
    assert_eq!(found.told, "ccr: 'check' and 'run': one of them at a time (ccr --help)\n");
}

#[test]
fn help_is_the_launchers() {
    let parts = std::fs::read_dir(Path::new(TOP).join("tools/lib")).expect("its folder").map(|part| part.expect("a part").path());
    let text: String = parts.filter(|part| part.is_file()).map(|part| std::fs::read_to_string(part).expect("a text")).collect();
    let help = text.split_once("cat <<'END'\nusage: ").and_then(|(_, rest)| rest.split_once("\nEND\n")).expect("the help").0;
    assert_eq!(ccr(&["--help"]).told, format!("usage: {help}\n"));
}

#[test]
fn files_are_read_in_place_of_standard_input() {
    let file = ccr(&["run", "--workers", "0", "examples/service.ccr"]);
    let stream = ended(program(&["run", "--workers", "0"]), read("examples/service.ccr").as_bytes());
    assert_eq!((&file.written, file.status, file.told.as_str()), (&stream.written, Some(0), ""));
    assert!(file.written.ends_with("\ndone 0\n"));
    // (each but the last ends in a line feed)
    let bare = scratch("bare.ccr", read("examples/service.ccr").trim_end().as_bytes());
    let output = scratch("output.txt", file.written.as_bytes());
    let verdict = ccr(&["verify", bare.to_str().expect("text"), output.to_str().expect("text")]);
    assert_eq!((verdict.written.as_str(), verdict.status), (LEGAL, Some(0)));
}

#[test]
fn files_that_cannot_be_read_are_named() {
    for (name, told) in [("not-there.ccr", "ccr: there is no file 'not-there.ccr'\n"), ("examples", "ccr: 'examples' is a directory\n")] {
        let found = ccr(&["check", name]);
        assert_eq!((found.written.as_str(), found.told.as_str(), found.status), (USAGE, told, Some(1)));
    }
}

#[test]
#[cfg(target_os = "linux")]
fn a_fault_of_a_file_names_it() {
    let found = ccr(&["check", "/proc/self/mem"]);
    assert_eq!((found.written.as_str(), found.status), ("", Some(3)));
    assert!(found.told.starts_with("ccr: '/proc/self/mem' can't be read: "), "{}", found.told);
}

#[test]
fn another_encoding_is_named() {
    let text: Vec<u8> = "\u{feff}ccr 1\nport a\n".encode_utf16().flat_map(u16::to_le_bytes).collect();
    let found = ccr(&["check", scratch("utf16.ccr", &text).to_str().expect("text")]);
    assert_eq!((found.written.as_str(), found.status), ("refused 1 1\ndone 2\n", Some(2)));
    let told = "ccr: line 1: a byte that is neither a blank nor a printable character of ASCII (code 1)\nccr: the text is UTF-16, and plain ASCII is due: iconv -f UTF-16 -t ASCII FILE\n";
    assert_eq!(found.told, told);
}

#[test]
fn a_refusal_is_told_with_its_line() {
    let found = ended(program(&["check"]), b"ccr 1\nport a\nprot b\n");
    assert_eq!((found.written.as_str(), found.status), ("refused 3 3\ndone 2\n", Some(2)));
    assert_eq!(found.told, "ccr: line 3: the first word can't begin a line here, or a keyword is another word (code 3)\n    3 | prot b\n");
    let mut quiet = program(&["check"]);
    quiet.env("CCR_QUIET", "1");
    let found = ended(quiet, b"ccr 1\nport a\nprot b\n");
    assert_eq!((found.written.as_str(), found.told.as_str(), found.status), ("refused 3 3\ndone 2\n", "", Some(2)));
}

#[test]
fn too_long_a_text_is_told() {
    let found = ended(program(&["check"]), &[b'#'; 1_048_577]);
    assert_eq!((found.written.as_str(), found.status), ("too long\ndone 8\n", Some(8)));
    assert_eq!(found.told, "ccr: the input has more than 1,048,576 bytes, or 33,554,432 at 'verify', 'replay' and 'steps' (status 8)\n");
}

/// What the README prints below `#=` of its first example.
fn example() -> String {
    let text = read("README.md");
    let block = text.split("```run").skip(1).find(|block| block.contains("run --workers 4 examples/robot.ccr")).expect("the example");
    block.split_once("#=\n").and_then(|(_, rest)| rest.split_once("```")).expect("what is printed").0.to_string()
}

#[test]
fn the_example_of_the_readme() {
    let run = ccr(&["run", "--workers", "4", "examples/robot.ccr"]);
    let output = scratch("robot.txt", run.written.as_bytes());
    let verdict = ccr(&["verify", "examples/robot.ccr", output.to_str().expect("text")]);
    let report = &run.written[run.written.find("\nreport 1\n").expect("a report") + 1..];
    assert_eq!((format!("{report}{}", verdict.written), run.status), (example(), Some(0)));
    assert!(verdict.written == LEGAL);
}
