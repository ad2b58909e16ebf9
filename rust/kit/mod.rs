//! What stands in for the library of Rattle's toolchain, as far as the crates use it: over Rust's std alone.
// (The crates of the tests use more than those of the program.)
#![cfg_attr(not(test), allow(dead_code, unused_imports, unused_macros))]

/// A vector of items, in the memory of an allocator; Rust's own without one.
macro_rules! vec {
    (in $alloc:expr; $item:expr; $count:expr) => { $crate::kit::memory::Vec::from_elem($alloc, $item, $count) };
    (in $alloc:expr; $($item:expr),* $(,)?) => { $crate::kit::memory::Vec::from_items($alloc, [$($item),*]) };
    ($($items:tt)*) => { ::std::vec![$($items)*] };
}

/// A line on standard output, as a result.
macro_rules! println {
    ($rt:expr; $($said:tt)*) => { $crate::kit::streams::say(&$rt, format_args!($($said)*)) };
    ($($said:tt)*) => { ::std::println!($($said)*) };
}

macro_rules! assert {
    ($rt:expr; $($said:tt)*) => {{ let _ = &$rt; ::std::assert!($($said)*) }};
    ($($said:tt)*) => { ::std::assert!($($said)*) };
}

macro_rules! assert_eq {
    ($rt:expr; $($said:tt)*) => {{ let _ = &$rt; ::std::assert_eq!($($said)*) }};
    ($($said:tt)*) => { ::std::assert_eq!($($said)*) };
}

pub mod atomic_table;
pub mod clap;
pub mod indexmap;
pub mod maps;
pub mod memory;
pub mod serde_json;
pub mod slab;
pub mod standard;
pub mod streams;
pub mod texts;
pub mod threads;

pub use texts::{itoa, memchr};

/// Names that each module has without an import.
pub mod prelude {
    pub use super::memory::{Box, CollectIn, Vec};
    pub use super::streams::{AllocGlobal, ExpectBy, HostRuntime};
    pub use super::texts::ToStringIn;

    /// Each value may be let go.
    pub trait Drop {}

    impl<T: ?Sized> Drop for T {}
}

/// Derived by the translation.
pub mod thiserror {
    pub use ::std::error::Error;
}

/// Rust's std, and what the toolchain's has in its place or besides.
pub mod std {
    pub use ::std::*;

    pub mod alloc {
        pub use crate::kit::memory::{AllocError, AllocFailed, Global};
    }

    pub mod collections {
        pub use crate::kit::maps::{BTreeSet, HashMap, HashSet};
        pub use crate::kit::memory::VecDeque;
        pub use ::std::collections::LinkedList;
    }

    pub mod marker {
        pub use ::std::marker::*;

        /// What contracts see of a type. It has nothing here.
        pub trait Model {}
    }

    pub mod snapshot {
        /// A value as contracts see it. It has nothing here.
        pub struct Snapshot<T>(::std::marker::PhantomData<T>);

        impl<T> Snapshot<T> {
            pub fn of(_: &T) -> Self {
                Snapshot(::std::marker::PhantomData)
            }
        }
    }

    pub mod hash {
        pub use crate::kit::maps::FoldHasher;
        pub use ::std::hash::*;
    }

    pub mod sync {
        pub use crate::kit::memory::Arc;
        pub use crate::kit::threads::Wait;
        pub use ::std::sync::*;
    }

    pub mod thread {
        pub use crate::kit::threads::{Parker, Threads, map_vec};
        pub use ::std::thread::*;
    }

    pub mod io {
        pub use crate::kit::streams::read_to_string;
        pub use ::std::io::*;
    }

    pub mod rt {
        pub use crate::kit::streams::Env;
    }

    pub mod env {
        pub use crate::kit::streams::FillError;
    }

    pub mod process {
        pub use crate::kit::streams::Abort;
        pub use ::std::process::*;
    }

    pub mod test {}
}
