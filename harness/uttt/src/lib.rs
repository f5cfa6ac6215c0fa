//! The proved library behind the same calls and answers as the oracle.

mod book;
#[path = "../../../bindings/rust/src/ffi.rs"]
pub mod ffi;
mod games;
mod lent;
pub mod ours;
pub mod players;
mod pool;
