//! What is left out and what is changed, each form once; that lines keep their numbers; and what is an error.
use super::checked::check;
use super::walk::Walk;
use super::{PRELUDE, Unknown, translate};

/// The translation as a module of the crate `ccr_it`, without the imports in front.
fn made(text: &str) -> String {
    let made = translate(text, "ccr_it").expect("it is known");
    made.strip_prefix(PRELUDE).expect("the imports").to_string()
}

/// The line at which it isn't known.
fn refused(text: &str) -> usize {
    translate(text, "ccr_it").expect_err("it isn't known").line
}

#[test]
fn clauses_are_left_out() {
    assert_eq!(made("fn a() -> u8\n    requires { true }\n    ensures named { λ r. r ≡ 1 }\n{ 1 }"), "fn a() -> u8\n    \n    \n{ 1 }");
    assert_eq!(made("|x| ensures { x } { x }"), "|x|  { x }");
}

#[test]
fn ghost_items_are_left_out_with_their_documentation() {
    assert_eq!(made("ghost use A.{b,\n c};\nuse d;"), "\n\nuse d;");
    assert_eq!(made("a;\n  /// What is meant.\n  ghost said = { λ x. x };\nlet a;"), "a;\n  //  What is meant.\n  \nlet a;");
    assert_eq!(made("pub ghost said: { Nat },\na: u8"), "\na: u8");
    assert_eq!(made("prove!(a ? b);\nc?;"), "\nc?;");
}

#[test]
fn implementations_of_the_prover_are_left_out() {
    assert_eq!(made("impl<T> Model for A<T> {\n type B = C;\n}\nimpl A {}"), "\n\n\nimpl A {}");
    assert_eq!(made("impl From<A> for B {}"), "impl From<A> for B {}");
}

#[test]
fn attributes_and_derives() {
    assert_eq!(made("#![tactic(auto)]\n#[inline]\nfn a() {}"), "\n#[inline]\nfn a() {}");
    assert_eq!(made("#[derive(Clone, Drop)]\nstruct A;"), "#[derive(Clone)]\nstruct A;");
    assert_eq!(made("#[derive(Drop)]\nstruct A;"), "\nstruct A;");
}

#[test]
fn paths_go_to_the_kit_and_to_the_modules() {
    assert_eq!(made("use crate::a::B;"), "use crate::crates::ccr_it::a::B;");
    assert_eq!(made("use ccr_base::List;"), "use crate::crates::ccr_base::List;");
    assert_eq!(made("use std::alloc::Global;"), "use crate::kit::std::alloc::Global;");
    assert_eq!(made("use a::std::b;"), "use a::std::b;");
}

#[test]
fn calls_that_take_an_allocator() {
    assert_eq!(made("a.collect(alloc)?"), "a.collect_in(alloc)?");
    assert_eq!(made("a.collect()"), "a.collect()");
    assert_eq!(made("a.expect(&rt, \"it is\")"), "a.expect_by(&rt, \"it is\")");
    assert_eq!(made("a.expect(f(b, c))"), "a.expect(f(b, c))");
}

#[test]
fn a_test_makes_its_runtime() {
    assert_eq!(made("#[test]\nfn a(rt: HostRuntime) {\n b(rt);\n}"), "#[test]\nfn a() { let rt = HostRuntime;\n b(rt);\n}");
    assert_eq!(made("fn main(rt: HostRuntime) {}"), "pub fn main(rt: HostRuntime) {}");
}

#[test]
fn errors_are_shown() {
    let text = made("#[derive(Debug, Error)]\nenum A {\n #[error(\"first\")]\n B,\n #[error(\"{0}\")]\n C(u8),\n #[error(\"{x}\")]\n D { x: u8 },\n}\nfn e() {}");
    assert!(text.contains("A::B => write!(f, \"first\"), A::C(first) => write!(f, \"{0}\", first), A::D { x } => write!(f, \"{x}\"), "));
    assert_eq!(text.lines().position(|line| line == "fn e() {}"), Some(9));
}

#[test]
fn comments_texts_and_characters_stay() {
    let text = "// ensures { a }\nlet a = \"ghost use b;\"; let c: &'a u8 = b'\\''; let d = '\"'; /* pub ghost */ let e = 1.5;\n";
    assert_eq!(made(text), text);
    assert_eq!(made("//! What it is.\nuse a;"), "//\nuse a;");
}

#[test]
fn what_is_not_known_is_an_error_with_its_line() {
    assert_eq!(refused("fn a() {}\n#[unheard_of]\nfn b() {}"), 2);
    assert_eq!(refused("\nghost fn a() {}"), 2);
    assert_eq!(refused("a\nensures x y { z }"), 2);
    assert_eq!(refused("let a = r\"raw\";"), 1);
    assert_eq!(refused("a\n\nlet λ = 1;"), 3);
    assert_eq!(refused("a ≡ b"), 1);
    assert_eq!(refused("let a = \"no end;\n"), 1);
    assert_eq!(refused("fn a()\nrequires { b"), 2);
    assert_eq!(refused("#[derive(Error)]\nenum A { B }"), 1);
    assert_eq!(refused("#[test]\nfn a(other: u8) {}"), 2);
    assert_eq!(refused("x;\nprove!(a) + 1;"), 2);
    assert_eq!(refused("/* a /* b */ c */"), 1);
}

/// What is found of a walk that wrote this for that text.
fn found(text: &str, out: &str) -> Result<(), Unknown> {
    let mut walk = Walk::new(text, "ccr_it").expect("tokens");
    walk.out.push_str(out);
    check(&walk)
}

#[test]
fn a_lost_question_mark_or_line_is_found() {
    assert_eq!(found("a()?;\nb()?;", "a()?;\nb()?;"), Ok(()));
    assert_eq!(found("a()?;\nb()?;", "a()?;\nb();").map_err(|unknown| unknown.line), Err(1));
    assert_eq!(found("a()?;\nb()?;", "a();\nb()?;").map_err(|unknown| unknown.line), Err(1));
    assert_eq!(found("a()?;\nb();", "a();\nb()?;").map_err(|unknown| unknown.line), Err(1));
    assert_eq!(found("a;\nb;\n", "a;\n b;").map_err(|unknown| unknown.line), Err(1));
}
