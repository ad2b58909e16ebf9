//! The nearest of some words, for what was misspelt.

/// The first of the words that is least far from it: one letter, or two where it has five or more.
pub fn nearest<'a>(word: &str, choices: impl IntoIterator<Item = &'a str>) -> Option<&'a str> {
    let wanted = word.to_lowercase();
    let most = if wanted.len() >= 5 { 2 } else { 1 };
    let far = choices.into_iter().map(|choice| (distance(wanted.as_bytes(), choice.as_bytes()), choice));
    far.filter(|(distance, _)| *distance <= most && word.len() <= 20).min_by_key(|(distance, _)| *distance).map(|(_, choice)| choice)
}

/// How many letters are added, left out, changed or swapped with the next from the one word to the other.
fn distance(from: &[u8], to: &[u8]) -> usize {
    let (mut above, mut before) = (Vec::new(), (0..=to.len()).collect::<Vec<_>>());
    for i in 1..=from.len() {
        let mut row = vec![i];
        for j in 1..=to.len() {
            let changed = before[j - 1] + usize::from(from[i - 1] != to[j - 1]);
            let mut least = changed.min(before[j] + 1).min(row[j - 1] + 1);
            if i > 1 && j > 1 && from[i - 1] == to[j - 2] && from[i - 2] == to[j - 1] {
                least = least.min(above[j - 2] + 1);
            }
            row.push(least);
        }
        above = std::mem::replace(&mut before, row);
    }
    before[to.len()]
}

#[cfg(test)]
mod tests {
    use super::*;

    #[test]
    fn letters_added_left_out_changed_and_swapped() {
        assert_eq!([distance(b"run", b"run"), distance(b"rnu", b"run"), distance(b"runs", b"run"), distance(b"chek", b"check"), distance(b"", b"run")], [0, 1, 1, 1, 3]);
        assert_eq!(nearest("rnu", ["check", "run"]), Some("run"));
        assert_eq!(nearest("VERIFI", ["check", "verify"]), Some("verify"));
        assert_eq!(nearest("walk", ["check", "run"]), None);
    }
}
