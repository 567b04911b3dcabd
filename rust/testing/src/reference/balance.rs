//! The balance of a pool, over the statements of all accounts: refusals 1 to 10, 15, 17
//! and 18.

use std::collections::BTreeSet;

use super::amounts::Settled;
use super::check::read;
use super::locked::Read;
use super::refuse_unless;
use super::statement::Settlement;
use crate::book::{Book, Constraint, Contract};
use crate::statement::Line;
use crate::{Balance, Books, Refusal};

/// "Numbers 1 to 10 come from every call on a book."
pub fn balance<'b>(books: impl Into<Books<'b>>, pool: u64) -> Result<Balance, Refusal> {
    balances(books)?.of(pool)
}

/// The balances of all pools of an accepted book, by their numbers.
pub fn balances<'b>(books: impl Into<Books<'b>>) -> Result<Balances, Refusal> {
    let read = read(books)?;
    let lines = lines_of_all(&read);
    let by_number = pools(&read.current)
        .iter()
        .map(|pool| pool.balance(&lines))
        .collect();
    Ok(Balances { by_number })
}

pub struct Balances {
    by_number: Vec<Balance>,
}

impl Balances {
    pub fn count(&self) -> u64 {
        self.by_number.len() as u64
    }

    /// A balance then looks for 15: "pool or line number past the end".
    pub fn of(&self, pool: u64) -> Result<Balance, Refusal> {
        refuse_unless(15, pool < self.count())?;
        let index = usize::try_from(pool).expect("it is below the count");
        Ok(self.by_number[index])
    }
}

/// "All accounts (each that 11 lets pass)": those that a unit row or an energy row
/// names, each once. "Balances are over the accounts of both books."
pub(super) fn accounts_of(read: &Read) -> BTreeSet<u32> {
    let accounts = read.each().flat_map(|book| {
        let units = book.units.iter().map(|row| row.account);
        let energies = book.energies.iter().map(|row| row.account);
        units.chain(energies)
    });
    accounts.collect()
}

/// The accounts that balances are over, rising.
pub fn accounts<'b>(books: impl Into<Books<'b>>) -> Result<Vec<u32>, Refusal> {
    Ok(accounts_of(&read(books)?).into_iter().collect())
}

/// The pools of an accepted book, by their numbers: what each is of, and its kind.
pub fn pools_by_number<'b>(books: impl Into<Books<'b>>) -> Result<Vec<(u32, Kind)>, Refusal> {
    let pools = pools(&read(books)?.current);
    Ok(pools.iter().map(|pool| (pool.id, pool.kind)).collect())
}

fn lines_of_all(read: &Read) -> Vec<Line> {
    let accounts = accounts_of(read);
    let statements = accounts.iter().map(|&account| {
        let settlement = Settlement::of(read, account);
        settlement.statement()
    });
    statements.flat_map(|statement| statement.lines).collect()
}

/// What a pool is.
#[derive(Clone, Copy, Debug, PartialEq, Eq)]
pub enum Kind {
    Contingency,
    Fpp,
    Used,
    Unused,
    Contract,
}

impl Kind {
    pub const ALL: [Kind; 5] = [
        Kind::Contingency,
        Kind::Fpp,
        Kind::Used,
        Kind::Unused,
        Kind::Contract,
    ];

    /// "Parts: 1 contingency by ACE, 2 by ASOE; unit lines 3 FPP, 4 used, 5 unused;
    /// residual lines 6 FPP, 7 used, 8 unused; 9 contract by ACE, 10 by ASOE."
    fn parts(self) -> [u8; 2] {
        match self {
            Kind::Contingency => [1, 2],
            Kind::Fpp => [3, 6],
            Kind::Used => [4, 7],
            Kind::Unused => [5, 8],
            Kind::Contract => [9, 10],
        }
    }
}

/// A pool of a book: what is to be recovered, and whose lines are to do it.
#[derive(Clone, Copy, Debug)]
pub struct Pool {
    pub kind: Kind,
    /// Of the constraint or the contract.
    pub id: u32,
    pub amount: i64,
    /// How many halves of a unit of money amount plus sum may have beyond one half
    /// per line.
    pub more_halves: u64,
}

/// "Pools are numbered from 0 in book order: one for a mode 0 constraint, three for
/// mode 1 (FPP, used, unused), one for mode 2, one for a contract."
pub fn pools(book: &Book) -> Vec<Pool> {
    let constraints = book.constraints.iter().flat_map(|of| match of.mode {
        0 => vec![Pool::contingency(of)],
        _ => regulation_pools(of),
    });
    let contracts = book.contracts.iter().map(Pool::contract);
    constraints.chain(contracts).collect()
}

fn regulation_pools(constraint: &Constraint) -> Vec<Pool> {
    let settled = Settled::by_mode(constraint.mode).iter();
    settled
        .map(|&what| Pool::regulation(constraint, what))
        .collect()
}

impl Pool {
    fn contingency(constraint: &Constraint) -> Self {
        Pool {
            kind: Kind::Contingency,
            id: constraint.id,
            amount: constraint.cost,
            more_halves: 0,
        }
    }

    /// "The amount to recover (0 for FPP)." "One half more for a regulation or FPP
    /// pool."
    fn regulation(constraint: &Constraint, what: Settled) -> Self {
        let (kind, amount) = match what {
            Settled::Fpp => (Kind::Fpp, 0),
            Settled::Used => (Kind::Used, what.pool(constraint)),
            Settled::Unused => (Kind::Unused, what.pool(constraint)),
        };
        Pool {
            kind,
            id: constraint.id,
            amount: i64::try_from(amount).expect("a part of a cost fits 64 bits"),
            more_halves: 1,
        }
    }

    /// "One half more per benefiting region for a contract."
    fn contract(contract: &Contract) -> Self {
        let benefiting = contract.factors.iter().filter(|&&factor| factor > 0);
        Pool {
            kind: Kind::Contract,
            id: contract.id,
            amount: contract.payment,
            more_halves: benefiting.count() as u64,
        }
    }

    /// The balance with these lines, among which are those of other pools. "It
    /// answers the amount to recover ..., how many lines all accounts ... have in
    /// that pool, and their sum."
    pub fn balance(&self, lines: &[Line]) -> Balance {
        let parts = self.kind.parts();
        let own = || {
            let lines = lines.iter();
            lines.filter(|line| line.id == self.id && parts.contains(&line.part))
        };
        Balance {
            amount: self.amount,
            lines: own().count() as u64,
            sum: own().map(|line| line.amount).sum(),
        }
    }

    /// "Amount plus sum is at most half a unit of money per line, and one half more
    /// for a regulation or FPP pool, or one half more per benefiting region for a
    /// contract, in size."
    pub fn closes(&self, balance: &Balance) -> bool {
        let left_over = balance.amount + balance.sum;
        2 * left_over.unsigned_abs() <= balance.lines + self.more_halves
    }
}
