//! Wilatkhun: checks the plans of mower yards and moves a yard tick by tick, by a library that is proved.
//!
//! [`calls`] has the library's nine calls over slices, exactly as `include/wilatkhun.h` describes them. The rest is a
//! small layer of types on top: a [`Plan`], a [`Yard`] that moves under it, and a [`Refusal`] that says what is wrong.
//! No call panics or keeps anything, and one that refuses changes nothing that was lent to it. None allocates but
//! [`listing`], which answers its whole text as a `String`.
//!
//! The library is linked from `target/staticlib` at the repository's root; `tools/archive` writes it.
#![deny(unsafe_code)]
#![warn(missing_debug_implementations)]

pub mod calls;
#[allow(unsafe_code)]
mod ffi;
mod listing;
mod plan;
mod refusal;
mod yard;

pub use listing::listing;
pub use plan::{check, find, read_file, write_file, Plan, Slot};
pub use refusal::Refusal;
pub use yard::{Base, Device, Down, Letter, Place, Record, Yard};
