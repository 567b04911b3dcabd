//! What the roundings of one stage of a pool cut off. The check, and then that stage
//! alone: an account without energy has nothing to round, so no account is counted.

use super::balance::{total_over, Pool};
use super::check::{checked, factors, totals, Totals, WHOLE};
use super::layout::{i32_at, size_at, u32_at, u64_at, Sections};
use super::shares::{by_factor, halves, Pools};
use super::statement::take_row;
use crate::{Books, Cutoff, Refusal};

const LINE: u8 = 1;
const POOL: u8 = 2;
const UNIT: u8 = 3;
const RESIDUAL: u8 = 4;
const SHARE: u8 = 5;
/// The first of the four that a contract has in each region.
const FIRST_OF_REGION: u8 = 6;

pub fn cutoff(books: Books, pool: u64, index: u64) -> Result<Cutoff, Refusal> {
    let read = checked(books, |_, _, _| {})?;
    let cutoff = Pool::numbered(&read.current, pool).and_then(|pool| {
        let (sections, _) = pool.shared_by(&read);
        let totals = totals(&sections);
        match pool {
            Pool::Contingency(record) => contingency(&sections, &totals, record, index),
            Pool::Regulation(record, what) => regulation(&sections, &totals, (record, what), index),
            Pool::Contract(record) => contract(&sections, &totals, record, index),
        }
    });
    cutoff.ok_or(Refusal {
        number: 15,
        place: 0,
    })
}

fn of_stage(stage: u8, divisor: u64, cut: i64) -> Cutoff {
    Cutoff {
        stage,
        region: 0,
        divisor,
        cut,
    }
}

/// What rounding `dividend` / `divisor` cuts off. The whole part of the quotient plus one
/// half is what it is rounded to, so the rest of that is what was cut off, plus the half.
#[inline(always)]
fn cut(dividend: u64, divisor: u64) -> i64 {
    let half = divisor / 2;
    ((dividend + half) % divisor) as i64 - half as i64
}

/// The same of a quotient below 0, if it is: there it has the other sign.
#[inline(always)]
fn signed_cut(amount: u64, factor: u32, is_negative: bool) -> i64 {
    let cut = cut(amount * u64::from(factor), WHOLE);
    if is_negative {
        -cut
    } else {
        cut
    }
}

/// What sharing an amount by energy over regions cuts off. An account's energy rows stand
/// side by side.
#[inline(always)]
fn shared(
    rows: &[[u8; 24]],
    (amount, total, regions): (u64, u64, u8),
    energy: impl Fn(&[u8; 24]) -> u32,
) -> i64 {
    if amount == 0 {
        return 0;
    }
    let mut sum = 0;
    let mut own = 0;
    let mut rows = rows.iter().peekable();
    while let Some(row) = rows.next() {
        let is_in = u64::from(regions >> row[4] & 1);
        own += is_in * u64::from(energy(row));
        let account = u32_at(row, 0);
        if rows.peek().is_none_or(|next| u32_at(*next, 0) != account) {
            sum += cut(amount * own, total);
            own = 0;
        }
    }
    sum
}

fn contingency(
    sections: &Sections,
    totals: &Totals,
    record: &[u8; 40],
    index: u64,
) -> Option<Cutoff> {
    if index != 0 {
        return None;
    }
    let [service, regions] = [record[4], record[5]];
    let kind = usize::from(service % 2);
    let total = total_over(totals, regions, kind);
    let pool = (u64_at(record, 8), total, regions);
    let cut = match kind {
        0 => shared(sections.energies, pool, |row| size_at(row, 8)),
        _ => shared(sections.energies, pool, |row| u32_at(row, 12)),
    };
    Some(of_stage(LINE, total, cut))
}

fn regulation(
    sections: &Sections,
    totals: &Totals,
    (record, what): (&[u8; 40], usize),
    index: u64,
) -> Option<Cutoff> {
    // Mode 2 rounds no pool, and so begins with the units.
    let stage = index.checked_add(if record[6] == 1 { 2 } else { 3 })?;
    let pools = Pools::of(record);
    Some(match u8::try_from(stage).ok()? {
        POOL => made(record, what),
        UNIT => of_stage(UNIT, WHOLE, units(sections, record, &pools, what)),
        RESIDUAL => {
            let (cf, default) = (i32_at(record, 28), size_at(record, 32));
            of_stage(RESIDUAL, WHOLE, by_factors(&pools, what, cf, default))
        }
        SHARE => {
            let regions = record[5];
            let total = total_over(totals, regions, 2);
            let residual = pools.residual(record)[what];
            let pool = (residual.unsigned_abs(), total, regions);
            let energy = |row: &[u8; 24]| size_at(row, 16) + u32_at(row, 20);
            let cut = shared(sections.energies, pool, energy);
            of_stage(SHARE, total, residual.signum() * cut)
        }
        _ => return None,
    })
}

/// What making the pool cuts off: FPP, used, and unused, which has the other sign of used.
fn made(record: &[u8; 40], what: usize) -> Cutoff {
    let (price, rcr) = (u32_at(record, 16), u32_at(record, 20));
    let used = || cut(u64_at(record, 8) * u64::from(u32_at(record, 24)), WHOLE);
    match what {
        0 => of_stage(POOL, 120, cut(u64::from(price) * u64::from(rcr), 120)),
        1 => of_stage(POOL, WHOLE, used()),
        _ => of_stage(POOL, WHOLE, -used()),
    }
}

/// What the factors of a unit, or of the residual, cut off of a pool.
#[inline(always)]
fn by_factors(pools: &Pools, what: usize, cf: i32, default: u32) -> i64 {
    match what {
        0 => signed_cut(pools.fpp, cf.unsigned_abs(), cf < 0),
        1 => signed_cut(pools.used, cf.min(0).unsigned_abs(), true),
        _ => signed_cut(pools.unused, default, true),
    }
}

fn units(sections: &Sections, record: &[u8; 40], pools: &Pools, what: usize) -> i64 {
    let id = u32_at(record, 0);
    let start = sections.units.partition_point(|row| u32_at(row, 0) < id);
    let mut units = &sections.units[start..];
    let mut sum = 0;
    while let Some(row) = take_row(&mut units, id) {
        sum += by_factors(pools, what, i32_at(row, 12), size_at(row, 16));
    }
    sum
}

fn contract(sections: &Sections, totals: &Totals, record: &[u8; 36], index: u64) -> Option<Cutoff> {
    let (payment, factors) = (u64_at(record, 8), factors(record));
    let mut benefiting = (0..5).filter(|&region: &usize| factors[region] != 0);
    let region = benefiting.nth(usize::try_from(index / 4).ok()?)?;
    let stage = (index % 4) as u8;
    let factor = factors[region];
    let (divisor, cut) = match stage {
        0 => (WHOLE, cut(payment * u64::from(factor), WHOLE)),
        1 => (2, cut(by_factor(payment, factor), 2)),
        _ => {
            let kind = usize::from(stage - 2);
            let total = totals[region][kind].into();
            let pool = (halves(payment, factor)[kind], total, region as u8);
            (total, in_region(sections.energies, pool, kind))
        }
    };
    Some(Cutoff {
        region: region as u8,
        ..of_stage(FIRST_OF_REGION + stage, divisor, cut)
    })
}

/// What sharing an amount by a region's ACE or ASOE cuts off. An account has one row at
/// most in a region.
fn in_region(rows: &[[u8; 24]], (amount, total, region): (u64, u64, u8), kind: usize) -> i64 {
    let in_region = rows.iter().filter(|row| row[4] == region);
    let cuts = in_region.map(|row| {
        let own = match kind {
            0 => size_at(row, 8),
            _ => u32_at(row, 12),
        };
        cut(amount * u64::from(own), total)
    });
    cuts.sum()
}
