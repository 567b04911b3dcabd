//! The amounts of an accepted book, in units of money and exact whole numbers.
//! Energies and factors keep the signs that they have in the book.

use crate::book::{Constraint, Contract, EnergyRow, RegionEntry, UnitRow};

/// Factors and usage are in millionths: this is one whole.
pub const WHOLE: i128 = 1_000_000;

/// "Rounding takes a quotient to the nearest whole number, halves away from
/// zero": in size the whole part of the quotient plus one half, then the sign.
pub fn round(dividend: i128, divisor: i128) -> i128 {
    let size = (2 * dividend.abs() + divisor.abs()) / (2 * divisor.abs());
    if (dividend < 0) == (divisor < 0) {
        size
    } else {
        -size
    }
}

/// The energies of one account, or of all, in one region or in several.
#[derive(Clone, Copy, Debug, Default)]
pub struct Energy {
    pub ace: i128,
    pub asoe: i128,
    /// |residual ACE| + |residual ASOE|.
    pub residual: i128,
}

impl Energy {
    pub fn of_entry(entry: &RegionEntry) -> Self {
        Energy {
            ace: entry.ace.into(),
            asoe: entry.asoe.into(),
            residual: entry.residual.into(),
        }
    }

    pub fn of_row(row: &EnergyRow) -> Self {
        let size = |energy: i32| i128::from(energy).abs();
        Energy {
            ace: row.ace.into(),
            asoe: row.asoe.into(),
            residual: size(row.residual_ace) + size(row.residual_asoe),
        }
    }

    /// "Missing energy rows count as 0": the sum of none is 0.
    pub fn sum(energies: impl Iterator<Item = Energy>) -> Self {
        energies.fold(Energy::default(), |sum, energy| Energy {
            ace: sum.ace + energy.ace,
            asoe: sum.asoe + energy.asoe,
            residual: sum.residual + energy.residual,
        })
    }
}

/// "Contingency: -round(cost x own / total), ... ACE for lower."
pub fn contingency_by_ace(constraint: &Constraint, own: Energy, total: Energy) -> i128 {
    -round(i128::from(constraint.cost) * own.ace, total.ace)
}

/// "Contingency: -round(cost x own / total), ASOE for raise."
pub fn contingency_by_asoe(constraint: &Constraint, own: Energy, total: Energy) -> i128 {
    -round(i128::from(constraint.cost) * own.asoe, total.asoe)
}

/// What a regulation constraint settles, each from a pool of its own.
#[derive(Clone, Copy, Debug, PartialEq, Eq)]
pub enum Settled {
    Fpp,
    Used,
    Unused,
}

impl Settled {
    /// What a constraint of the mode settles: "three for mode 1 (FPP, used, unused),
    /// one for mode 2", in which the cost is all unused.
    pub fn by_mode(mode: u8) -> &'static [Settled] {
        match mode {
            0 => &[],
            1 => &[Settled::Fpp, Settled::Used, Settled::Unused],
            _ => &[Settled::Unused],
        }
    }

    /// "Used = round(cost x usage / 1,000,000); unused = cost - used. Mode 2: all
    /// unused. FPP pool = round(price x RCR / 120)."
    pub fn pool(self, constraint: &Constraint) -> i128 {
        let cost = i128::from(constraint.cost);
        let used = match constraint.mode {
            1 => round(cost * i128::from(constraint.usage), WHOLE),
            _ => 0,
        };
        match self {
            Settled::Fpp => round(
                i128::from(constraint.price) * i128::from(constraint.rcr),
                120,
            ),
            Settled::Used => used,
            Settled::Unused => cost - used,
        }
    }

    /// "FPP by CF, used by min(0, CF), unused by DCF."
    pub fn factor(self, cf: i32, dcf: i32) -> i128 {
        match self {
            Settled::Fpp => cf.into(),
            Settled::Used => cf.min(0).into(),
            Settled::Unused => dcf.into(),
        }
    }

    /// "Unit lines: round(pool x factor / 1,000,000)."
    pub fn unit_line(self, constraint: &Constraint, row: &UnitRow) -> i128 {
        round(self.pool(constraint) * self.factor(row.cf, row.dcf), WHOLE)
    }

    /// "Residual pools are made the same way, from RCF, min(0, RCF), DRCF."
    pub fn residual_pool(self, constraint: &Constraint) -> i128 {
        let factor = self.factor(constraint.rcf, constraint.drcf);
        round(self.pool(constraint) * factor, WHOLE)
    }

    /// "An account's residual line is round(residual pool x TE / ATE)."
    pub fn residual_line(self, constraint: &Constraint, own: Energy, total: Energy) -> i128 {
        let pool = self.residual_pool(constraint);
        round(pool * own.residual, total.residual)
    }
}

/// What a contract settles in one region, by ACE and by ASOE.
pub struct Halves {
    pub consumed: i128,
    pub sent_out: i128,
}

impl Halves {
    /// "r = round(payment x factor / 1,000,000). The consumed half is r / 2, an
    /// odd r rounded up; the sent-out half is the rest."
    pub fn of(contract: &Contract, region: usize) -> Self {
        let factor = i128::from(contract.factors[region]);
        let r = round(i128::from(contract.payment) * factor, WHOLE);
        let consumed = r / 2 + r % 2;
        Halves {
            consumed,
            sent_out: r - consumed,
        }
    }

    /// "The account's two lines are -round(half x own / region total), by ACE and
    /// ASOE": the first,
    pub fn by_ace(&self, own: Energy, total: Energy) -> i128 {
        -round(self.consumed * own.ace, total.ace)
    }

    /// and the second.
    pub fn by_asoe(&self, own: Energy, total: Energy) -> i128 {
        -round(self.sent_out * own.asoe, total.asoe)
    }
}

#[cfg(test)]
mod tests {
    use super::round;

    /// "Rounding of 1/2, -1/2, 3/2, -7/4, 1/4 gives 1, -1, 2, -2, 0"; and with
    /// both signs turned, as ACE has them, the same.
    #[test]
    fn halves_go_away_from_zero() {
        let cases = [(1, 2, 1), (-1, 2, -1), (3, 2, 2), (-7, 4, -2), (1, 4, 0)];
        for (dividend, divisor, rounded) in cases {
            assert_eq!(round(dividend, divisor), rounded);
            assert_eq!(round(-dividend, -divisor), rounded);
        }
    }
}
