//! The balance of a pool. What takes time beside the check is how many accounts there
//! are, and a division for each.
//!
//! Energy rows stand in the order of their accounts, so those are counted where the
//! account changes. Unit rows do not: their accounts go into a table on the stack,
//! open-addressed, more than three times as large as there can be of them, while the
//! check passes the rows; each account of energy rows is then looked up in it. Where the
//! locked book is read, its unit rows go into a larger table with the others, and so do
//! the energy rows of the one book by whose energy the pool is not shared.

use std::cell::Cell;

use super::check::{checked, factors, totals, Read, Totals, TEST};
use super::layout::{i32_at, size_at, u32_at, u64_at, Sections};
use super::shares::{halves, share, Pools};
use super::statement::take_row;
use crate::{Balance, Books, Refusal};

/// Books shorter than this together have fewer than 128 unit rows and energy rows.
const SHORT: usize = 84 + 20 * 128;

pub fn balance(books: Books, pool: u64) -> Result<Balance, Refusal> {
    // Clearing a large table would take longer than all else in a short book.
    if books.book.len() + books.locked.len() < SHORT {
        balance_with(&mut Accounts::<256>::none(), books, pool)
    } else if books.locked.is_empty() {
        balance_with(&mut Accounts::<2_048>::none(), books, pool)
    } else {
        balance_with(&mut Accounts::<4_096>::none(), books, pool)
    }
}

fn balance_with<const SLOTS: usize>(
    accounts: &mut Accounts<SLOTS>,
    books: Books,
    pool: u64,
) -> Result<Balance, Refusal> {
    let read = checked(books, |_, account, _| accounts.insert(account))?;
    let pool = Pool::numbered(&read.current, pool).ok_or(Refusal {
        number: 15,
        place: 0,
    })?;
    let (sections, other) = pool.shared_by(&read);
    accounts.insert_rows(other.map_or(&[], |other| other.energies));
    let totals = totals(&sections);
    Ok(match pool {
        Pool::Contingency(record) => contingency(&sections, &totals, accounts, record),
        Pool::Regulation(record, what) => regulation(&sections, &totals, accounts, record, what),
        Pool::Contract(record) => contract(&sections, &totals, accounts, record),
    })
}

/// The accounts of unit rows, and of the energy rows that nothing is shared by, each once.
/// A slot of 0 is free: no account is 0.
struct Accounts<const SLOTS: usize> {
    slots: [u32; SLOTS],
    count: u64,
}

impl<const SLOTS: usize> Accounts<SLOTS> {
    fn none() -> Self {
        Accounts {
            slots: [0; SLOTS],
            count: 0,
        }
    }

    /// The slot that has the account, or the free one where it belongs.
    #[inline(always)]
    fn slot(&self, account: u32) -> usize {
        let mixed = account.wrapping_mul(0x9e37_79b1);
        let mut slot = (mixed >> (32 - SLOTS.trailing_zeros())) as usize;
        loop {
            let found = self.slots[slot % SLOTS];
            if found == account || found == 0 {
                return slot % SLOTS;
            }
            slot += 1;
        }
    }

    #[inline(always)]
    fn insert(&mut self, account: u32) {
        let slot = self.slot(account);
        self.count += u64::from(self.slots[slot] == 0);
        self.slots[slot] = account;
    }

    fn insert_rows(&mut self, energies: &[[u8; 24]]) {
        for row in energies {
            self.insert(u32_at(row, 0));
        }
    }

    #[inline(always)]
    fn has(&self, account: u32) -> bool {
        self.slots[self.slot(account)] != 0
    }

    /// How many accounts there are, those of these energy rows and those of the table. On
    /// the way `on_row` is shown each energy row, and `on_end` told when an account's rows
    /// were shown.
    #[inline(always)]
    fn with_energies(
        &self,
        rows: &[[u8; 24]],
        mut on_row: impl FnMut(&[u8; 24]),
        mut on_end: impl FnMut(),
    ) -> u64 {
        let mut count = self.count;
        for (index, row) in rows.iter().enumerate() {
            let account = u32_at(row, 0);
            on_row(row);
            let is_last = rows
                .get(index + 1)
                .is_none_or(|next| u32_at(next, 0) != account);
            if is_last {
                on_end();
                count += u64::from(!self.has(account));
            }
        }
        count
    }
}

/// A pool, and which of its constraint's it is: 0 FPP, 1 used, 2 unused.
pub(super) enum Pool<'b> {
    Contingency(&'b [u8; 40]),
    Regulation(&'b [u8; 40], usize),
    Contract(&'b [u8; 36]),
}

impl<'b> Pool<'b> {
    pub fn numbered(sections: &Sections<'b>, number: u64) -> Option<Self> {
        let mut left = number;
        for record in sections.constraints {
            let (pools, first) = match record[6] {
                0 if left == 0 => return Some(Pool::Contingency(record)),
                1 => (3, 0),
                _ => (1, 2),
            };
            if left < pools {
                return Some(Pool::Regulation(record, first + left as usize));
            }
            left -= pools;
        }
        let contract = sections.contracts.get(usize::try_from(left).ok()?)?;
        Some(Pool::Contract(contract))
    }

    /// The book by whose energy the pool is shared, and the other that is read, if one is.
    pub fn shared_by(&self, read: &Read<'b>) -> (Sections<'b>, Option<Sections<'b>>) {
        match (self, read.locked) {
            (Pool::Contract(record), Some(locked)) if record[4] == TEST => {
                (locked, Some(read.current))
            }
            (_, locked) => (read.current, locked),
        }
    }
}

/// The total of a kind over the regions of a mask.
pub(super) fn total_over(totals: &Totals, regions: u8, kind: usize) -> u64 {
    let set = (0..5).filter(|region| regions >> region & 1 == 1);
    set.map(|region| u64::from(totals[region][kind])).sum()
}

/// What all accounts have of an amount, shared by energy over regions, and how many
/// accounts there are.
#[inline(always)]
fn shared<const SLOTS: usize>(
    sections: &Sections,
    accounts: &Accounts<SLOTS>,
    (amount, total, regions): (u64, u64, u8),
    energy: impl Fn(&[u8; 24]) -> u32,
) -> (i64, u64) {
    let rows = sections.energies;
    if amount == 0 {
        return (0, accounts.with_energies(rows, |_| {}, || {}));
    }
    let own = Cell::new(0);
    let mut sum = 0;
    let count = accounts.with_energies(
        rows,
        |row| {
            // A product and no branch, as whether a row's region is asked for would
            // often be mispredicted.
            let is_in = u64::from(regions >> row[4] & 1);
            own.set(own.get() + is_in * u64::from(energy(row)));
        },
        || sum += share(amount, own.take(), total),
    );
    (sum as i64, count)
}

fn contingency<const SLOTS: usize>(
    sections: &Sections,
    totals: &Totals,
    accounts: &Accounts<SLOTS>,
    record: &[u8; 40],
) -> Balance {
    let [service, regions] = [record[4], record[5]];
    let cost = u64_at(record, 8);
    let kind = usize::from(service % 2);
    let pool = (cost, total_over(totals, regions, kind), regions);
    let (sum, lines) = match kind {
        0 => shared(sections, accounts, pool, |row| size_at(row, 8)),
        _ => shared(sections, accounts, pool, |row| u32_at(row, 12)),
    };
    Balance {
        amount: cost as i64,
        lines,
        sum: -sum,
    }
}

fn regulation<const SLOTS: usize>(
    sections: &Sections,
    totals: &Totals,
    accounts: &Accounts<SLOTS>,
    record: &[u8; 40],
    what: usize,
) -> Balance {
    let regions = record[5];
    let pools = Pools::of(record);
    let residual = pools.residual(record)[what];
    let pool = (
        residual.unsigned_abs(),
        total_over(totals, regions, 2),
        regions,
    );
    let residual_of = |row: &[u8; 24]| size_at(row, 16) + u32_at(row, 20);
    let (sum, count) = shared(sections, accounts, pool, residual_of);
    let mut balance = Balance {
        amount: [0, pools.used, pools.unused][what] as i64,
        lines: count,
        sum: residual.signum() * sum,
    };
    let id = u32_at(record, 0);
    let start = sections.units.partition_point(|row| u32_at(row, 0) < id);
    let mut units = &sections.units[start..];
    while let Some(row) = take_row(&mut units, id) {
        balance.lines += 1;
        balance.sum += pools.by_factors(i32_at(row, 12), size_at(row, 16))[what];
    }
    balance
}

fn contract<const SLOTS: usize>(
    sections: &Sections,
    totals: &Totals,
    accounts: &Accounts<SLOTS>,
    record: &[u8; 36],
) -> Balance {
    let payment = u64_at(record, 8);
    let factors = factors(record);
    let halves = factors.map(|factor| halves(payment, factor));
    let mut sum = 0;
    let count = accounts.with_energies(
        sections.energies,
        |row| {
            let region = usize::from(row[4]);
            if factors[region] != 0 {
                let [by_ace, by_asoe] = halves[region];
                let [ace, asoe, _] = totals[region].map(u64::from);
                sum += share(by_ace, size_at(row, 8).into(), ace);
                sum += share(by_asoe, u32_at(row, 12).into(), asoe);
            }
        },
        || {},
    );
    let benefiting = factors.iter().filter(|&&factor| factor != 0).count() as u64;
    Balance {
        amount: payment as i64,
        lines: 2 * benefiting * count,
        sum: -(sum as i64),
    }
}
