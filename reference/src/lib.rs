//! The board heat model of document 01, with the requests of document 02 that have landed, in plain Rust, written
//! from those papers alone, to be compared with and measured against. No dependencies.
//!
//! Every call takes slices of any length and numbers of any size and never
//! panics. Only `main` uses the heap.

#![forbid(unsafe_code)]
// Rows and columns go by number, as in the paper.
#![allow(clippy::needless_range_loop)]

pub mod answer;
mod calls;
mod card;
mod edge;
mod element;
mod import;
mod judge;
pub mod kept;
mod layout;
mod packed;
mod radiation;
mod round;
mod single;
mod solid;
mod step;
mod text;
pub mod zones;

pub use answer::{Answer, Ran, Refusal, Stepped};
pub use calls::{read, write};
pub use card::{Card, MAX_BYTES, MAX_NODES, MAX_ROWS};
pub use import::import;
pub use packed::{build, factor, replace, run, step};
pub use radiation::loss;
