//! What roundings cut off, summed stage by stage for a pool: refusals 1 to 10, 15, 17 and
//! 18. The sentences are those of the request (02, Req 06).

use std::iter;

use super::amounts::{round, Energy, Halves, Settled, WHOLE};
use super::balance::accounts_of;
use super::check::read;
use super::locked::Read;
use super::refuse_unless;
use super::statement::{in_64_bits, Settlement};
use crate::book::{Constraint, Contract};
use crate::{Books, Cutoff, Refusal};

// The rounding stages, in the order in which a pool has them.

const LINE: u8 = 1;
const POOL: u8 = 2;
const UNIT: u8 = 3;
const RESIDUAL: u8 = 4;
const SHARE: u8 = 5;
const WHOLE_OF_REGION: u8 = 6;
const HALF: u8 = 7;
const ACE: u8 = 8;
const ASOE: u8 = 9;

/// The refusals are those of the balance, and then 15 for a number past the pool's last
/// stage too.
pub fn cutoff<'b>(books: impl Into<Books<'b>>, pool: u64, index: u64) -> Result<Cutoff, Refusal> {
    cutoffs(books)?.of(pool, index)
}

/// All stages of one pool.
pub fn all_cutoffs<'b>(books: impl Into<Books<'b>>, pool: u64) -> Result<Vec<Cutoff>, Refusal> {
    let cutoffs = cutoffs(books)?;
    Ok(cutoffs.of_pool(pool)?.to_vec())
}

/// Those of all pools of an accepted book, by their numbers. "A balance names the sums of
/// these numerators, one for each rounding stage, region by region for a contract."
pub fn cutoffs<'b>(books: impl Into<Books<'b>>) -> Result<Cutoffs, Refusal> {
    let read = read(books)?;
    let all = All::of(&read);
    let constraints = read.current.constraints.iter();
    let contracts = read.current.contracts.iter();
    let by_pool = constraints
        .flat_map(|constraint| all.of_constraint(constraint))
        .chain(contracts.map(|contract| all.of_contract(contract)))
        .collect();
    Ok(Cutoffs { by_pool })
}

pub struct Cutoffs {
    by_pool: Vec<Vec<Cutoff>>,
}

impl Cutoffs {
    pub fn of(&self, pool: u64, index: u64) -> Result<Cutoff, Refusal> {
        numbered(self.of_pool(pool)?, index).copied()
    }

    pub fn of_pool(&self, pool: u64) -> Result<&[Cutoff], Refusal> {
        Ok(numbered(&self.by_pool, pool)?)
    }
}

/// 15: "number past the end".
fn numbered<T>(all: &[T], number: u64) -> Result<&T, Refusal> {
    refuse_unless(15, number < all.len() as u64)?;
    Ok(&all[number as usize])
}

/// "What it cut off, as a signed numerator (exact less rounded) over its divisor."
fn cut_off(dividend: i128, divisor: i128) -> i128 {
    dividend - round(dividend, divisor) * divisor
}

/// A stage: what the roundings of these dividends, all over one divisor, cut off together.
fn stage(number: u8, divisor: i128, dividends: impl IntoIterator<Item = i128>) -> Cutoff {
    let cuts = dividends.into_iter().map(|of| cut_off(of, divisor));
    Cutoff {
        stage: number,
        region: 0,
        divisor: u64::try_from(divisor).expect("what is divided by is above 0"),
        cut: in_64_bits(cuts.sum()),
    }
}

/// All accounts that the balance is over.
struct All<'b> {
    read: &'b Read,
    accounts: Vec<Settlement<'b>>,
}

impl<'b> All<'b> {
    fn of(read: &'b Read) -> Self {
        let accounts = accounts_of(read).into_iter();
        let accounts = accounts.map(|account| Settlement::of(read, account));
        All {
            read,
            accounts: accounts.collect(),
        }
    }

    /// "Pools are numbered from 0 in book order: one for a mode 0 constraint, three for
    /// mode 1 (FPP, used, unused), one for mode 2."
    fn of_constraint(&self, constraint: &Constraint) -> Vec<Vec<Cutoff>> {
        if constraint.mode == 0 {
            return vec![vec![self.line(constraint)]];
        }
        let settled = Settled::by_mode(constraint.mode).iter();
        let pools = settled.map(|&what| self.of_regulation(constraint, what));
        pools.collect()
    }

    /// What the accounts have of energy over a mask's regions, and the total that is
    /// divided by, in sizes: "own and total are both negative, the share is not".
    fn energies(&self, mask: u8, size: fn(Energy) -> i128) -> (Vec<i128>, i128) {
        let own = self.accounts.iter().map(|of| size(of.over(mask).0));
        let regions = (0..5).filter(|region| mask >> region & 1 == 1);
        let entries = regions.map(|region: usize| &self.read.current.regions[region]);
        let total = Energy::sum(entries.map(Energy::of_entry));
        (own.collect(), size(total))
    }

    /// "Contingency: -round(cost x own / total), ASOE for raise, ACE for lower." The line
    /// is minus the quotient; what is cut off is the quotient's.
    fn line(&self, constraint: &Constraint) -> Cutoff {
        let cost = i128::from(constraint.cost);
        let size = match constraint.service {
            1 | 3 | 5 | 7 => |energy: Energy| energy.asoe.abs(),
            _ => |energy: Energy| energy.ace.abs(),
        };
        let (own, total) = self.energies(constraint.regions, size);
        stage(LINE, total, own.into_iter().map(|own| cost * own))
    }

    /// The pool itself, "unit lines: round(pool x factor / 1,000,000)", "residual pools are
    /// made the same way", "an account's residual line is round(residual pool x TE / ATE)".
    fn of_regulation(&self, constraint: &Constraint, what: Settled) -> Vec<Cutoff> {
        let (pool, residual) = (what.pool(constraint), what.residual_pool(constraint));
        let units = self.read.current.units.iter();
        let units = units.filter(|row| row.constraint == constraint.id);
        let by_units = units.map(|row| pool * what.factor(row.cf, row.dcf));
        let by_rest = pool * what.factor(constraint.rcf, constraint.drcf);
        let (own, total) = self.energies(constraint.regions, |energy| energy.residual);
        let shares = own.into_iter().map(|own| residual * own);
        let mut stages = Vec::from_iter(made(constraint, what));
        stages.push(stage(UNIT, WHOLE, by_units));
        stages.push(stage(RESIDUAL, WHOLE, iter::once(by_rest)));
        stages.push(stage(SHARE, total, shares));
        stages
    }

    /// For each benefiting region four stages.
    fn of_contract(&self, contract: &Contract) -> Vec<Cutoff> {
        let benefiting = (0..5).filter(|&region| contract.factors[region] > 0);
        let stages = benefiting.flat_map(|region| {
            let stages = self.of_region(contract, region);
            stages.map(|of| Cutoff {
                region: region as u8,
                ..of
            })
        });
        stages.collect()
    }

    /// "r = round(payment x factor / 1,000,000). The consumed half is r / 2, an odd r
    /// rounded up; the sent-out half is the rest. The account's two lines are -round(half x
    /// own / region total), by ACE and ASOE."
    fn of_region(&self, contract: &Contract, region: usize) -> [Cutoff; 4] {
        let whole = i128::from(contract.payment) * i128::from(contract.factors[region]);
        let r = round(whole, WHOLE);
        let Halves { consumed, sent_out } = Halves::of(contract, region);
        let entry = &self.read.for_contract(contract).regions[region];
        let total = Energy::of_entry(entry);
        let own = || {
            let shares = self.accounts.iter().flat_map(|of| of.shares(contract));
            shares.filter(move |share| share.region == region)
        };
        let by_ace = own().map(|share| consumed * share.own.ace.abs());
        let by_asoe = own().map(|share| sent_out * share.own.asoe.abs());
        [
            stage(WHOLE_OF_REGION, WHOLE, iter::once(whole)),
            stage(HALF, 2, iter::once(r)),
            stage(ACE, total.ace.abs(), by_ace),
            stage(ASOE, total.asoe.abs(), by_asoe),
        ]
    }
}

/// What making the pool cuts off. "Used = round(cost x usage / 1,000,000); unused = cost -
/// used. Mode 2: all unused. FPP pool = round(price x RCR / 120)." Unused is not rounded
/// itself: it has what used has less, and so minus what that cut off.
fn made(constraint: &Constraint, what: Settled) -> Option<Cutoff> {
    let [price, rcr, usage] = [constraint.price, constraint.rcr, constraint.usage].map(i128::from);
    let used = stage(POOL, WHOLE, [i128::from(constraint.cost) * usage]);
    match (constraint.mode, what) {
        (2, _) => None,
        (_, Settled::Fpp) => Some(stage(POOL, 120, [price * rcr])),
        (_, Settled::Used) => Some(used),
        (_, Settled::Unused) => Some(Cutoff {
            cut: -used.cut,
            ..used
        }),
    }
}

#[cfg(test)]
mod tests {
    use super::{cut_off, round};

    /// "Rounding of 1/2, -1/2, 3/2, -7/4, 1/4 gives 1, -1, 2, -2, 0": exact less rounded
    /// are -1/2, 1/2, -1/2, 1/4 and 1/4.
    #[test]
    fn what_halves_cut_off() {
        let cases = [(1, 2, -1), (-1, 2, 1), (3, 2, -1), (-7, 4, 1), (1, 4, 1)];
        for (dividend, divisor, cut) in cases {
            assert_eq!(cut_off(dividend, divisor), cut, "{dividend} / {divisor}");
        }
    }

    #[test]
    fn no_more_than_half_a_divisor_is_cut_off() {
        for divisor in 1..50 {
            for dividend in -200..=200 {
                let cut = cut_off(dividend, divisor);
                assert!(2 * cut.abs() <= divisor, "{dividend} / {divisor}");
                assert_eq!(round(dividend, divisor) * divisor + cut, dividend);
            }
        }
    }
}
