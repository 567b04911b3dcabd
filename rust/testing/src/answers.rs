//! Answers in plain numbers, as the rules have them: what the reference, the fast
//! version and the library are compared in.

use std::fmt;

pub use fervolatro::{Balance, Heading};

/// Why a call is refused.
#[derive(Clone, Copy, Debug, PartialEq, Eq)]
pub struct Refusal {
    /// The number of the refusal as in the scope document's table; 16 of a dispatch row,
    /// 17 and 18 of the locked book, 19 of a line of the reconciliation file.
    pub number: u8,
    /// The offset of the record or the row at fault, or the number of the line, or 0 where
    /// the refusal has none.
    pub place: usize,
}

/// As the listing has it.
impl fmt::Display for Refusal {
    fn fmt(&self, out: &mut fmt::Formatter<'_>) -> fmt::Result {
        write!(out, "refused {} at {}", self.number, self.place)
    }
}

/// What one line of a statement says.
#[derive(Clone, Copy, Debug, Default, PartialEq, Eq)]
pub struct Entry {
    /// Of the constraint, or in parts 9 and 10 of the contract.
    pub id: u32,
    pub part: u8,
    /// One bit each, bit 0 for NSW1.
    pub regions: u8,
    /// 0 where the line is not a unit's.
    pub unit: u32,
    /// In ten-thousandths of a dollar; what the account must pay is negative.
    pub amount: i64,
}

/// What the roundings of one stage of a pool cut off, together.
#[derive(Clone, Copy, Debug, Default, PartialEq, Eq)]
pub struct Cutoff {
    /// 1 line, 2 pool, 3 unit, 4 residual, 5 share; of a contract 6 whole, 7 half, 8 ace,
    /// 9 asoe.
    pub stage: u8,
    /// From 0 for NSW1 to 4 for VIC1 in the stages of a contract, else 0.
    pub region: u8,
    pub divisor: u64,
    /// Exact less rounded, in parts of the divisor.
    pub cut: i64,
}

/// What one line of the reconciliation file says. Each number has room beyond its range,
/// so that one can be written down that is out of it.
#[derive(Clone, Copy, Debug, Default, PartialEq, Eq)]
pub struct NmasRow {
    pub date: i64,
    pub run: i64,
    pub interval: i64,
    pub account: i64,
    pub contract: i64,
    /// 0 availability, 1 enablement, 2 compensation.
    pub payment_type: usize,
    /// From 0 for NSW1 to 4 for VIC1.
    pub region: usize,
    /// In millionths.
    pub factor: i64,
    /// In ten-thousandths of a dollar, as the other amounts.
    pub payment: i64,
    pub recovery: i64,
    /// In kWh, as the other energies.
    pub own_ace: i64,
    pub region_ace: i64,
    pub own_asoe: i64,
    pub region_asoe: i64,
    pub by_ace: i64,
    pub by_asoe: i64,
}
