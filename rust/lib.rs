//! Coordination that is fixed by a text: a wiring says which messages start which work, a run of it is written down event by event, and
//! any such history can be judged without running anything.
//!
//! ```
//! use ccr::{Verdict, Wiring, Workers, verify};
//!
//! let wiring = Wiring::read("ccr 1\nqueue q unbounded\nport a\nhandler h\nend\nreceive r always q h take a 1 any\nposter p\npost a 7\nend\n")?;
//! let run = wiring.run(Workers::Threads(4))?;
//! assert_eq!(run.counts().fired, 1);
//! assert!(run.history().contains("post s0.0 a 7"));
//! let Verdict::Legal(legal) = verify(&wiring, run.text())? else { panic!("a run is legal") };
//! assert!(legal.complete && legal.quiet);
//! # Ok::<(), ccr::Error>(())
//! ```
//!
//! The sources are the proved crates of this repository, without their contracts. docs/RUST.md says what is promised here and what isn't.
#![deny(missing_docs, unsafe_code)]

#[macro_use]
mod kit;

/// The crates as rust/build.rs writes them.
#[allow(warnings, clippy::all, unsafe_code)]
mod crates {
    include!(concat!(env!("OUT_DIR"), "/crates.rs"));
}

mod api;

pub use api::error::{Error, ErrorKind};
pub use api::run::{Counts, Run, Workers};
pub use api::sentences;
pub use api::verdict::{Illegal, Legal, Verdict, verify};
pub use api::wiring::Wiring;
pub use api::words::{Status, answer};
pub use kit::streams::Standard;

#[cfg(test)]
mod tests;

/// The page's program is a doc test.
#[cfg(doctest)]
#[doc = include_str!("../docs/RUST.md")]
mod page {}

#[cfg(test)]
#[path = "translate/mod.rs"]
mod translate;
