//! The kernel's own text, patched, with the harness as its test entry.

#[path = "kernel/mod.rs"]
mod kernel;

pub use kernel::harness::*;
