//! What bench.c measures beside the library and is written in Rust: the independent model of the papers, and a ring of twelve bytes
//! that moves bytes and knows no paper. One crate, since two Rust libraries do not go into one C program.
#![allow(clippy::missing_safety_doc)]

mod model_entries;
mod ring;
mod ring_work;
