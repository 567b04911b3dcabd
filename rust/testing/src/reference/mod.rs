//! The reference: the rules of the scope document (01) and of the requests that have
//! landed (02), written from these alone and in their order. Where they have a sentence
//! for a rule, that sentence stands over it. It is written to be compared with them by
//! eye, not for speed.

mod amounts;
mod balance;
mod check;
mod cutoff;
mod dispatch;
mod listing;
mod locked;
mod nmas;
mod reading;
mod statement;

pub use amounts::round;
pub use balance::{accounts, balance, balances, pools, pools_by_number, Balances, Kind, Pool};
pub use check::check;
pub use cutoff::{all_cutoffs, cutoff, cutoffs, Cutoffs};
pub use dispatch::{base_cost, costs, payment, Costs};
pub use listing::{listed, listing};
pub use nmas::{nmas, nmas_row, nmas_row_of, nmas_rows, read_nmas, spelled, whole_nmas};
pub use reading::{header, line, lines, read, rewrite, unpack, whole_rewrite};
pub use statement::{length, settle, statement, whole_statement};

use crate::Refusal;

/// A refusal that has no record has place 0.
fn refuse_unless(number: u8, holds: bool) -> Result<(), Refusal> {
    refuse_at(number, (!holds).then_some(0))
}

fn refuse_at(number: u8, fault: Option<usize>) -> Result<(), Refusal> {
    match fault {
        Some(place) => Err(Refusal { number, place }),
        None => Ok(()),
    }
}
