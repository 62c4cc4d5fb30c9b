//! The slot board and its console, in plain Rust.
//!
//! Written from `docs/RULES.md` and `docs/CONSOLE.md` alone. The section numbers in the comments
//! are those of these two pages.

pub mod board;
pub mod console;
pub mod lines;

pub use lines::run;
