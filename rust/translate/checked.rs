//! Looks at a translation once more: it has the lines of its text, and on each line every `?` of the code.
use super::Unknown;
use super::tokens::{Token, tokens};
use super::walk::Walk;

/// Whether nothing got lost on the way. What was left out counts as the walk says it.
pub fn check(walk: &Walk) -> Result<(), Unknown> {
    let made = tokens(&walk.out)?;
    let kept = walk.tokens.iter().enumerate().filter(|(at, _)| !is_left_out(walk, *at)).map(|(_, token)| token);
    let (due, found) = (questions(kept), questions(made.iter()));
    if let Some(line) = due.iter().zip(&found).find_map(|(due, found)| (due != found).then_some(*due)) {
        return Err(Unknown { line, what: String::from("a `?` that isn't where it was") });
    }
    let ends = |all: &[Token]| all.iter().map(|token| token.text.matches('\n').count()).sum::<usize>();
    if ends(&walk.tokens) != ends(&made) || due.len() != found.len() {
        return Err(Unknown { line: ends(&made), what: String::from("other lines, or another `?`, than the text has") });
    }
    Ok(())
}

fn is_left_out(walk: &Walk, at: usize) -> bool {
    let after = walk.left_out.partition_point(|(first, _)| *first <= at);
    after.checked_sub(1).is_some_and(|part| at <= walk.left_out[part].1)
}

/// The line of each `?`.
fn questions<'a>(all: impl Iterator<Item = &'a Token<'a>>) -> Vec<usize> {
    all.filter(|token| token.text == "?").map(|token| token.line).collect()
}
