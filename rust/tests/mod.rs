//! Tests from inside the library. (The `#[test]` functions of the crates run beside these; rust/tests/program.rs tries the program as a process.)
mod calls;
mod rows;
mod sentences;
