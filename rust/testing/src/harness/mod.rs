//! One harness for all comparisons: random requests, the same question put to two sides,
//! and counts of what was asked and answered, so that no kind of case goes missing.
//!
//! The same seed gives the same run; the environment variable FERVOLATRO_SEED sets
//! another one. A difference is told with the seed, the sort of inputs and the input.

mod lengths;
pub mod lent;
mod masks;
mod question;
pub mod report;
mod run;
mod sources;

pub use masks::{constraint_over, every_mask, zero_total_over};
pub use question::{Answer, Call, File, Given, Side, FAST, LIBRARY, REFERENCE};
pub use run::{Family, Run, Units, Wanted};
pub use sources::asked_of;
