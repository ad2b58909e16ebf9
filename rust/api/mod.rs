//! The calls for a Rust program. What the contracts of the crates require of a caller is tested here, and is an error where it isn't so.
pub mod error;
pub mod run;
pub mod sentences;
pub mod verdict;
pub mod wiring;
pub mod words;
