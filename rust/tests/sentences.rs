//! The sentences are those of tools/explain, word by word.
use crate::sentences::{Text, of_code, of_history_code, of_misreport, of_rule, of_status};

fn explain() -> String {
    std::fs::read_to_string(concat!(env!("CARGO_MANIFEST_DIR"), "/tools/explain")).expect("it can be read")
}

/// The sentences of the table of that name, from number 0.
fn table(name: &str) -> Vec<String> {
    let text = explain();
    let begin = text.find(&format!("\n{name}=(")).expect("the table");
    let lines = text[begin..].lines().skip(1).take_while(|line| line.starts_with(&format!("{name}=(")) || line.starts_with("  \""));
    lines.map(|line| line.split('"').nth(1).expect("a sentence").to_string()).collect()
}

fn assert_same(name: &str, count: usize, sentence: impl Fn(u8) -> &'static str) {
    let due = table(name);
    assert_eq!(due.len(), count + 1);
    for (number, due) in (0..).zip(&due) {
        assert_eq!(sentence(number), due, "{name} {number}");
    }
    assert_eq!(sentence(u8::try_from(due.len()).expect("few")), "");
}

#[test]
fn tables_are_the_same() {
    assert_same("codes", 17, |code| of_code(Text::Wiring, code));
    assert_same("history", 3, of_history_code);
    assert_same("rules", 16, of_rule);
}

#[test]
fn codes_of_services_are_the_same() {
    let text = explain();
    let others: Vec<(u8, &str)> = text
        .lines()
        .filter_map(|line| line.trim().strip_prefix("codes[")?.split_once("]=\""))
        .map(|(code, rest)| (code.parse().expect("a number"), rest.split('"').next().expect("a sentence")))
        .collect();
    assert_eq!(others.len(), 6);
    for code in 1..=17 {
        let other = others.iter().find(|(number, _)| *number == code).map(|(_, sentence)| *sentence);
        assert_eq!(of_code(Text::Service, code), other.unwrap_or(of_code(Text::Wiring, code)));
    }
}

#[test]
fn statuses_are_the_same() {
    let text = explain();
    for status in [1, 3, 4, 5, 8] {
        let begin = format!("{status}) echo \"ccr: ");
        let line = text.lines().find_map(|line| line.trim().strip_prefix(&begin)).expect("the status");
        let due = line.strip_suffix("\" ;;").expect("its end");
        assert_eq!(of_status(status), due.strip_suffix(&format!(" (status {status})")).unwrap_or(due));
    }
    assert!(text.contains(&format!("ccr: line $line: {}\"", of_misreport())));
}
