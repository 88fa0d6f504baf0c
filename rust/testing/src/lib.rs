//! What the verified library, the package `gmti`, is held against.
//!
//! [`independent`] implements the same document in plain Rust and shares no code with the library, [`by_hand`] is a reader written for
//! speed, and [`generator`] makes packets and sheets for tests from a seed. [`comparison`] compares call by call, over the [`cases`] of a
//! seed, and [`tally`] counts what was tried. [`library`] has the library's functions as C has them.
#![warn(missing_docs)]

pub mod by_hand;
pub mod cases;
pub mod comparison;
pub mod generator;
pub mod independent;
pub mod library;
pub mod tally;

use std::path::{Path, PathBuf};

/// The top folder of the repository, where crates, docs, include and samples are.
pub fn root() -> PathBuf {
    Path::new(env!("CARGO_MANIFEST_DIR")).join("../..")
}
