//! Reports on the crates: what nothing cites, what stands twice, what has to be believed, which
//! numbers are written out.
//!
//! Layers, bottom up: tokens; the parts of an antt file and of a code file; all files and what each
//! name stands for; the reports.

pub mod antt;
pub mod believed;
pub mod doubled;
pub mod exceptions;
pub mod graph;
pub mod laws;
pub mod lex;
pub mod literals;
pub mod roots;
pub mod rt;
pub mod scope;
pub mod tree;
pub mod types;
pub mod uncited;
pub mod walk;

use std::io::Write;

/// Prints a report; that nobody reads on is no failure.
pub fn print(text: &str) {
    let _ = std::io::stdout().write_all(text.as_bytes());
}
