//! Codes, rules and statuses in words: the sentences of tools/explain, as docs/CODES.md shows them.

/// Whose codes are meant: some numbers mean something else in the text of a service.
#[derive(Clone, Copy, Debug, PartialEq, Eq)]
pub enum Text {
    /// A wiring, turn lines, or a record.
    Wiring,
    /// A service.
    Service,
}

/// By the code, from 1. No code 15 is in use.
const CODES: [&str; 17] = [
    "a byte that is neither a blank nor a printable character of ASCII",
    "the first line is neither 'ccr 1' nor 'ccr 2', or there is none",
    "the first word can't begin a line here, or a keyword is another word",
    "a word is missing or too many",
    "what stands where a number or value is due isn't one",
    "this name is declared already",
    "this name isn't declared on an earlier line, is of another kind, or isn't in the set",
    "a port twice in a pattern or set, a cause twice in a post, or an Interleave combined twice",
    "the text ends inside a block: an 'end' is missing",
    "a number outside its limit, or one line, word or number more than there may be",
    "a choice or an Interleave without a branch",
    "with this branch more than 16 spots name one port",
    "a second 'budget' line",
    "a name is 1 to 16 bytes: a letter, then letters, digits, '_' or '-'",
    "",
    "there is no line whose first word is 'record'",
    "the text ends without 'done 0', or something stands behind it",
];

/// Codes that mean something else in a service.
const SERVICE_CODES: [(u8, &str); 6] = [
    (2, "the first line isn't 'service 1', or there is none"),
    (7, "this operation isn't declared on an earlier line, or the name is of another kind"),
    (9, "the text ends inside a client: an 'end' is missing"),
    (11, "a service without an operation"),
    (13, "a second 'policy' line"),
    (14, "a name of a service is 1 to 12 bytes: a letter, then letters or digits"),
];

/// By the code of a history, from 1.
const HISTORY_CODES: [&str; 3] = [
    "this is no line of a history, or isn't spelled as one",
    "a port, a cause, a branch or a site that isn't in the wiring",
    "the text ends before the line 'report 1'",
];

/// By the rule, from 1.
const RULES: [&str; 16] = [
    "this isn't the next line of the poster's script",
    "this isn't the next post of a task that is running",
    "the posts of tasks have used up the budget",
    "a task of this name fired before, or its actor is above 32",
    "the spot can't fire any more, or nobody is suspended at the site",
    "these aren't the messages that the spot takes from what its ports hold",
    "the throttle queue has no room for a firing",
    "the cuts aren't all waiting tasks at a teardown, or aren't none elsewhere",
    "the task isn't the oldest that waits for its Interleave",
    "the Interleave doesn't admit the task beside those that it admitted",
    "the task may not be put: it didn't fire, was put or cut, or isn't admitted",
    "the dropped task isn't the one that the queue's policy drops",
    "the task isn't the oldest in its queue: another is, or it was never put, started before, was cut or dropped",
    "the actor is a poster, is above 32, or runs a task that it started",
    "the task isn't running: it never fired or started, or it ended, was cut or dropped",
    "the segment doesn't end so: a post is left, its play ends otherwise, or it may not be shed",
];

fn at(table: &[&'static str], number: u8) -> &'static str {
    usize::from(number).checked_sub(1).and_then(|place| table.get(place)).copied().unwrap_or("")
}

/// Why a line of a text is refused with this code; empty where there is no such code.
pub fn of_code(text: Text, code: u8) -> &'static str {
    let other = SERVICE_CODES.iter().find(|(number, _)| text == Text::Service && *number == code);
    other.map_or_else(|| at(&CODES, code), |(_, sentence)| sentence)
}

/// Why a text is no history, by its code; empty where there is no such code.
pub fn of_history_code(code: u8) -> &'static str {
    at(&HISTORY_CODES, code)
}

/// Why an event is illegal by this rule (docs/MODEL.md); empty where there is no such rule.
pub fn of_rule(rule: u8) -> &'static str {
    at(&RULES, rule)
}

/// What a status says that has no line of its own; empty for the others.
pub fn of_status(status: u8) -> &'static str {
    match status {
        1 => "these words ask for nothing that there is (docs/FORMATS.md, Words)",
        3 => "reading standard input failed",
        4 => "writing standard output failed: at most a prefix of it stands there",
        5 => "out of memory",
        8 => "the input has more than 1,048,576 bytes, or 33,554,432 at 'verify', 'replay' and 'steps'",
        _ => "",
    }
}

/// What an output of `verify` is whose report or last line isn't the one that is due.
pub fn of_misreport() -> &'static str {
    "the report or the last line isn't what the history gives"
}
