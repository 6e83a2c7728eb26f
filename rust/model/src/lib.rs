//! A model of the yard of document 01, and of request 01 of document 02, in plain Rust, written from their words alone.
//!
//! The clear half (`check`, `yard`, `file`, `writer`, `listing`) follows them sentence by sentence, for comparison.
//! `watch` holds a history against demand 3, `gen` makes cases from seeds, `plain` gives the same answers at speed.
#![forbid(unsafe_code)]

pub mod bytes;
pub mod check;
pub mod file;
pub mod gen;
pub mod listing;
pub mod plain;
mod steps;
mod supervisor;
pub mod types;
pub mod watch;
pub mod writer;
pub mod yard;

pub use check::check;
pub use file::{find, read, Piece};
pub use types::{Base, Device, Down, Letter, Place, Plan, Record, Slot, Verdict, Yard};
pub use watch::Watch;
pub use writer::write;
pub use yard::{fresh, run, tick, well_formed};
