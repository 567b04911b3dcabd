//! Books, checked and settled.

use std::collections::BTreeSet;

use crate::calls::{self, Books};
use crate::kinds::{Mode, Regions, Service};
use crate::refusal::Refusal;
use crate::statement::LARGEST_STATEMENT;

/// The bytes of the largest book that is accepted.
pub const LARGEST_BOOK: usize = 39_796;

/// Checks a book: any bytes are either accepted or refused for one reason, the first
/// that applies, at the lowest offset where it does.
///
/// ```
/// # fn main() -> Result<(), Box<dyn std::error::Error>> {
/// let mut book = std::fs::read("../../books/worked.book")?;
/// fervolatro::check(&book, None)?;
/// book[88] = 11; // the first constraint's service
/// let refusal = fervolatro::check(&book, None).unwrap_err();
/// assert_eq!(refusal.to_string(), "refusal 5 at 84: a field outside its rules");
/// # Ok(())
/// # }
/// ```
///
/// A book with a contract of kind 2, a test payment, wants the locked book: one of the
/// same date and interval that keeps checks 1 to 9 by itself, of the same run or of an
/// earlier one. No bytes at all are none. Where the book has no such contract, the locked
/// one is not read, whatever it is.
///
/// ```
/// # fn main() -> Result<(), Box<dyn std::error::Error>> {
/// let locked = std::fs::read("../../books/worked.book")?;
/// let mut book = locked.clone();
/// book[20] = 1; // one contract, at the end
/// let mut contract = [0; 36];
/// contract[0] = 1; // its id
/// contract[4] = 2; // its kind
/// contract[16..20].copy_from_slice(&1_000_000_u32.to_le_bytes()); // all for NSW1
/// book.extend(contract);
/// fervolatro::check(&book, Some(&locked))?;
/// let refusal = fervolatro::check(&book, None).unwrap_err();
/// assert_eq!(refusal.reason, fervolatro::Reason::NoLocked);
/// assert_eq!(refusal.place, 272);
/// # Ok(())
/// # }
/// ```
pub fn check(book: &[u8], locked: Option<&[u8]>) -> Result<(), Refusal> {
    calls::check(Books::of(book, locked)).into_result()
}

/// How many bytes an account's statement has, and so how much room [`statement_into`]
/// needs for it. All refusals but 13 are looked for as a statement looks for them.
///
/// ```
/// # fn main() -> Result<(), Box<dyn std::error::Error>> {
/// let book = std::fs::read("../../books/worked.book")?;
/// let length = fervolatro::length(&book, None, 7)?;
/// // A header and twelve lines, of 24 bytes each.
/// assert_eq!(length, 312);
/// let mut buffer = vec![0; length];
/// assert_eq!(fervolatro::statement_into(&book, None, 7, &mut buffer)?, length);
/// let refusal = fervolatro::length(&book, None, 8).unwrap_err();
/// assert_eq!(refusal.reason, fervolatro::Reason::NoAccount);
/// # Ok(())
/// # }
/// ```
pub fn length(book: &[u8], locked: Option<&[u8]>, account: u32) -> Result<usize, Refusal> {
    let length = calls::length(Books::of(book, locked), account).into_length()?;
    assert!(length <= LARGEST_STATEMENT, "a statement of {length} bytes");
    Ok(length)
}

/// The statement of an account. Its length is asked for first, and just so much room is
/// made. Date, interval and run are the book's own, also where the locked one is read.
///
/// ```
/// # fn main() -> Result<(), Box<dyn std::error::Error>> {
/// let book = std::fs::read("../../books/worked.book")?;
/// assert_eq!(fervolatro::statement(&book, None, 7)?.len(), 312);
/// let refusal = fervolatro::statement(&book, None, 8).unwrap_err();
/// assert_eq!(refusal.reason, fervolatro::Reason::NoAccount);
/// # Ok(())
/// # }
/// ```
pub fn statement(book: &[u8], locked: Option<&[u8]>, account: u32) -> Result<Vec<u8>, Refusal> {
    let length = length(book, locked, account)?;
    let mut statement = vec![0; length];
    let written = statement_into(book, locked, account, &mut statement);
    assert_eq!(written, Ok(length), "a statement has the length asked for");
    Ok(statement)
}

/// Writes an account's statement at the front of the buffer and gives its length, which
/// [`length`] tells beforehand; later bytes stay. A refusal leaves every byte of the
/// buffer. 13 is looked for last.
///
/// ```
/// let mut buffer = [7; 312];
/// let refusal = fervolatro::statement_into(b"RCB", None, 1, &mut buffer).unwrap_err();
/// assert_eq!(refusal.number(), 1);
/// assert_eq!(buffer, [7; 312]);
/// ```
pub fn statement_into(
    book: &[u8],
    locked: Option<&[u8]>,
    account: u32,
    buffer: &mut [u8],
) -> Result<usize, Refusal> {
    let books = Books::of(book, locked);
    calls::statement(books, account, buffer).into_result(buffer.len())
}

/// The balance of a pool. Amount and sum, in ten-thousandths of a dollar, are each
/// other's opposite but for what rounding leaves over.
#[derive(Clone, Copy, Debug, Default, PartialEq, Eq, Hash)]
pub struct Balance {
    /// What is to be recovered; 0 for FPP.
    pub amount: i64,
    /// How many lines all accounts have in the pool.
    pub lines: u64,
    /// What those lines add up to; what accounts must pay is negative.
    pub sum: i64,
}

/// Gives the balance of a pool, by its number in the order of [`pools`]. Its lines are
/// those of all [`accounts`].
///
/// ```
/// # fn main() -> Result<(), Box<dyn std::error::Error>> {
/// let book = std::fs::read("../../books/worked.book")?;
/// let fpp = fervolatro::balance(&book, None, 0)?;
/// assert_eq!((fpp.amount, fpp.lines, fpp.sum), (0, 7, 1));
/// let refusal = fervolatro::balance(&book, None, 3).unwrap_err();
/// assert_eq!(refusal.reason, fervolatro::Reason::PastEnd);
/// # Ok(())
/// # }
/// ```
pub fn balance(book: &[u8], locked: Option<&[u8]>, pool: u64) -> Result<Balance, Refusal> {
    calls::balance(Books::of(book, locked), pool).into_result()
}

/// The accounts: those that a unit row or an energy row names, rising, each once. The
/// rows are the book's, and those of the locked book where it is read, which is where the
/// book has a contract of kind 2. The books are checked first.
///
/// ```
/// # fn main() -> Result<(), Box<dyn std::error::Error>> {
/// let book = std::fs::read("../../books/worked.book")?;
/// assert_eq!(fervolatro::accounts(&book, None)?, [7, 9]);
/// # Ok(())
/// # }
/// ```
pub fn accounts(book: &[u8], locked: Option<&[u8]>) -> Result<Vec<u32>, Refusal> {
    check(book, locked)?;
    let sections = Sections::of(book);
    let mut accounts: BTreeSet<u32> = sections.accounts().collect();
    if let Some(locked) = locked.filter(|_| sections.has_test()) {
        accounts.extend(Sections::of(locked).accounts());
    }
    Ok(accounts.into_iter().collect())
}

/// A pool: what is to be recovered from the accounts, and under which number
/// [`balance`] has it.
#[derive(Clone, Copy, Debug, PartialEq, Eq, Hash)]
pub struct Pool {
    pub number: u64,
    pub source: Source,
    pub kind: PoolKind,
}

/// The constraint or the contract that a pool is of.
#[derive(Clone, Copy, Debug, PartialEq, Eq, Hash)]
pub enum Source {
    Constraint {
        id: u32,
        service: Service,
        regions: Regions,
        mode: Mode,
    },
    Contract {
        id: u32,
    },
}

impl Source {
    /// The constraint's or the contract's id, as the lines of a statement have it.
    pub const fn id(&self) -> u32 {
        match *self {
            Source::Constraint { id, .. } | Source::Contract { id } => id,
        }
    }
}

/// Which of its source's pools it is.
#[derive(Clone, Copy, Debug, PartialEq, Eq, PartialOrd, Ord, Hash)]
pub enum PoolKind {
    /// The cost of a contingency constraint.
    Contingency,
    /// The frequency performance payments of a factored constraint.
    Fpp,
    /// The used part of a factored constraint's cost.
    Used,
    /// The unused part of a factored constraint's cost, or all of a default one's.
    Unused,
    /// The payment of a contract.
    Contract,
}

/// The pools of a book, by their numbers: one for a contingency constraint, three for a
/// factored one, one for a default one, one for a contract, in the order of the book.
/// The books are checked first.
///
/// ```
/// # fn main() -> Result<(), Box<dyn std::error::Error>> {
/// use fervolatro::PoolKind;
///
/// let book = std::fs::read("../../books/worked.book")?;
/// let pools = fervolatro::pools(&book, None)?;
/// assert!(pools.iter().all(|pool| pool.source.id() == 500));
/// let kinds: Vec<PoolKind> = pools.iter().map(|pool| pool.kind).collect();
/// assert_eq!(kinds, [PoolKind::Fpp, PoolKind::Used, PoolKind::Unused]);
/// # Ok(())
/// # }
/// ```
pub fn pools(book: &[u8], locked: Option<&[u8]>) -> Result<Vec<Pool>, Refusal> {
    check(book, locked)?;
    let sections = Sections::of(book);
    let constraints = sections.constraints.iter().flat_map(|record| {
        let (source, kinds) = constraint_pools(record);
        kinds.iter().map(move |&kind| (source, kind))
    });
    let contracts = sections.contracts.iter().map(|record| {
        let id = u32_at(record, 0);
        (Source::Contract { id }, PoolKind::Contract)
    });
    let numbered = (0..).zip(constraints.chain(contracts));
    let pools = numbered.map(|(number, (source, kind))| Pool {
        number,
        source,
        kind,
    });
    Ok(pools.collect())
}

/// A constraint of an accepted book, and its pools in their order.
fn constraint_pools(record: &[u8; 40]) -> (Source, &'static [PoolKind]) {
    let mode = Mode::from_number(record[6]).expect("an accepted book has modes 0 to 2");
    let source = Source::Constraint {
        id: u32_at(record, 0),
        service: Service::from_number(record[4]).expect("services are 1 to 10"),
        regions: Regions::from_mask(record[5]).expect("regions are 1 to 31"),
        mode,
    };
    let kinds: &[PoolKind] = match mode {
        Mode::Contingency => &[PoolKind::Contingency],
        Mode::Factored => &[PoolKind::Fpp, PoolKind::Used, PoolKind::Unused],
        Mode::Default => &[PoolKind::Unused],
    };
    (source, kinds)
}

/// The records of a book that keeps checks 1 to 4, where they stand.
struct Sections<'b> {
    constraints: &'b [[u8; 40]],
    units: &'b [[u8; 20]],
    energies: &'b [[u8; 24]],
    contracts: &'b [[u8; 36]],
}

impl<'b> Sections<'b> {
    fn of(book: &'b [u8]) -> Self {
        let count_at = |at: usize| usize::from(u16::from_le_bytes([book[at], book[at + 1]]));
        // Behind the header and the region entries.
        let mut rest = &book[84..];
        Sections {
            constraints: take(&mut rest, count_at(14)),
            units: take(&mut rest, count_at(16)),
            energies: take(&mut rest, count_at(18)),
            contracts: take(&mut rest, count_at(20)),
        }
    }

    /// The accounts that the rows name, any number of times.
    fn accounts(&self) -> impl Iterator<Item = u32> + use<'b> {
        let units = self.units.iter().map(|row| u32_at(row, 8));
        let energies = self.energies.iter().map(|row| u32_at(row, 0));
        units.chain(energies)
    }

    /// Whether there is a contract of kind 2.
    fn has_test(&self) -> bool {
        self.contracts.iter().any(|record| record[4] == 2)
    }
}

/// Takes so many records of `N` bytes from the front.
fn take<'b, const N: usize>(bytes: &mut &'b [u8], count: usize) -> &'b [[u8; N]] {
    let (records, rest) = bytes.split_at(N * count);
    *bytes = rest;
    records.as_chunks().0
}

fn u32_at(record: &[u8], at: usize) -> u32 {
    let bytes = record[at..].first_chunk();
    u32::from_le_bytes(*bytes.expect("a field lies in its record"))
}

impl calls::Pool {
    /// The answer as a result. A balance has place 0, a refusal no balance.
    fn into_result(self) -> Result<Balance, Refusal> {
        let balance = Balance {
            amount: self.amount,
            lines: self.lines,
            sum: self.sum,
        };
        calls::accepted(self.refusal, self.place, balance == Balance::default())?;
        Ok(balance)
    }
}
