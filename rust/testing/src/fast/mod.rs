//! The rules once more, written for speed: what the benchmark holds the library
//! against. Nothing is allocated, and no unit row or energy row is passed more than
//! twice, once to check it and once to settle it; nor is any of the locked book's.
//!
//! It is no second reference: `tests/fast.rs`, `tests/dispatch.rs`, `tests/nmas.rs` and
//! `tests/cutoff.rs` compare it with that one.

mod balance;
mod check;
mod cutoff;
mod dispatch;
mod layout;
mod lines;
mod nmas;
mod shares;
mod statement;

pub use balance::balance;
pub use check::check;
pub use cutoff::cutoff;
pub use dispatch::{base_cost, payment};
pub use lines::{lines, Fields};
pub use nmas::{nmas, nmas_row, nmas_rows};
pub use statement::{length, statement};
