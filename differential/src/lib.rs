//! The engine's static library for Rust: its calls and its texts over slices.
//!
//! It is linked into the programs that call it (`-bundle`), so that `programs`, which calls none of it, is
//! built without it.

pub mod engine;
pub mod text_engine;
