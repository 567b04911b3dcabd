//! Pools and rounded shares, in sizes: nothing here is negative.
//!
//! Every product fits 64 bits: the largest is 50,000,000,000 x 5 x 20,000,000.

use super::layout::{i32_at, size_at, u32_at, u64_at};

/// `amount` x `own` / `whole`, to the nearest; halves go up, that is away from zero.
#[inline(always)]
pub(super) fn share(amount: u64, own: u64, whole: u64) -> u64 {
    (amount * own + whole / 2) / whole
}

/// The same with a factor in millionths.
#[inline(always)]
pub(super) fn by_factor(amount: u64, factor: u32) -> u64 {
    share(amount, factor.into(), 1_000_000)
}

/// The amount with its sign.
#[inline(always)]
pub(super) fn signed(size: u64, is_negative: bool) -> i64 {
    let amount = size as i64;
    if is_negative {
        -amount
    } else {
        amount
    }
}

/// What a regulation constraint settles.
pub(super) struct Pools {
    pub fpp: u64,
    pub used: u64,
    pub unused: u64,
}

impl Pools {
    #[inline(always)]
    pub fn of(constraint: &[u8; 40]) -> Self {
        let cost = u64_at(constraint, 8);
        let (price, rcr) = (u32_at(constraint, 16), u32_at(constraint, 20));
        let used = by_factor(cost, u32_at(constraint, 24));
        Pools {
            fpp: share(price.into(), rcr.into(), 120),
            used,
            unused: cost - used,
        }
    }

    /// What CF and the size of DCF make of the pools: FPP, used, unused.
    #[inline(always)]
    pub fn by_factors(&self, cf: i32, default: u32) -> [i64; 3] {
        let negative = cf.min(0).unsigned_abs();
        [
            signed(by_factor(self.fpp, cf.unsigned_abs()), cf < 0),
            -(by_factor(self.used, negative) as i64),
            -(by_factor(self.unused, default) as i64),
        ]
    }

    /// The residual pools: FPP, used, unused.
    #[inline(always)]
    pub fn residual(&self, constraint: &[u8; 40]) -> [i64; 3] {
        self.by_factors(i32_at(constraint, 28), size_at(constraint, 32))
    }
}

/// What a contract settles in a region by ACE and by ASOE.
#[inline(always)]
pub(super) fn halves(payment: u64, factor: u32) -> [u64; 2] {
    let both = by_factor(payment, factor);
    let consumed = both.div_ceil(2);
    [consumed, both - consumed]
}
