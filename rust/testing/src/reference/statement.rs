//! The statement of one account, and its length: refusals 1 to 13, 17 and 18, the lines in
//! their order.

use super::amounts::{contingency_by_ace, contingency_by_asoe, Energy, Halves, Settled};
use super::check::read;
use super::locked::{PerBook, Read};
use super::refuse_unless;
use crate::book::{Book, Constraint, Contract, UnitRow};
use crate::statement::{Header, Line, Statement};
use crate::{Books, Refusal};

/// "A line would pass 50,000,000,000 either way."
const LINE_LIMIT: i64 = 50_000_000_000;

/// "Make two operations of it: one answers the length for an account, the other writes."
/// "The first gives 1 to 12." "Header, 24 bytes"; a line has as many.
pub fn length<'b>(books: impl Into<Books<'b>>, account: u32) -> Result<usize, Refusal> {
    let statement = settle(books, account)?;
    Ok(24 + 24 * statement.lines.len())
}

/// "A statement then looks for 11, 12, 13." "Each does its own checks": nothing that was
/// asked for before counts.
pub fn statement<'b>(
    books: impl Into<Books<'b>>,
    account: u32,
    buffer: &mut [u8],
) -> Result<usize, Refusal> {
    write(&settle(books, account)?, buffer)
}

/// The statement by itself, where no buffer is lent.
pub fn whole_statement<'b>(books: impl Into<Books<'b>>, account: u32) -> Result<Vec<u8>, Refusal> {
    Ok(settle(books, account)?.encode())
}

/// 13: "lent buffer shorter than the statement". "A refusal answers its number and
/// place, ... and the lent buffer holds what it held. Success writes exactly the
/// statement at the front and answers its length; later bytes stay."
pub(super) fn write(statement: &Statement, buffer: &mut [u8]) -> Result<usize, Refusal> {
    lend(&statement.encode(), buffer)
}

/// The same for any bytes that a call writes.
pub(super) fn lend(written: &[u8], buffer: &mut [u8]) -> Result<usize, Refusal> {
    refuse_unless(13, buffer.len() >= written.len())?;
    buffer[..written.len()].copy_from_slice(written);
    Ok(written.len())
}

/// The statement itself, without a buffer: all refusals but 13.
pub fn settle<'b>(books: impl Into<Books<'b>>, account: u32) -> Result<Statement, Refusal> {
    let read = read(books)?;
    let (_, statement) = settled(&read, account)?;
    Ok(statement)
}

/// The books that were accepted, seen by an account, and its statement: refusals 11 and 12.
pub(super) fn settled(read: &Read, account: u32) -> Result<(Settlement<'_>, Statement), Refusal> {
    refuse_unless(11, is_named(read, account))?;
    let settlement = Settlement::of(read, account);
    let statement = settlement.statement();
    refuse_unless(12, statement.lines.iter().all(is_within_limit))?;
    Ok((settlement, statement))
}

pub(super) fn is_within_limit(line: &Line) -> bool {
    (-LINE_LIMIT..=LINE_LIMIT).contains(&line.amount)
}

/// 11: "when no book read names the account", and a book does by "unit row" or "energy
/// row".
fn is_named(read: &Read, account: u32) -> bool {
    read.each().any(|book| {
        book.units.iter().any(|row| row.account == account)
            || book.energies.iter().any(|row| row.account == account)
    })
}

/// What a book has of energy, by region: one account's, and that of all.
struct Energies {
    own: [Energy; 5],
    total: [Energy; 5],
}

impl Energies {
    fn of(book: &Book, account: u32) -> Self {
        let own_in = |region: usize| {
            let rows = book.energies.iter();
            let own =
                rows.filter(|row| row.account == account && usize::from(row.region) == region);
            Energy::sum(own.map(Energy::of_row))
        };
        Energies {
            own: std::array::from_fn(own_in),
            total: std::array::from_fn(|region| Energy::of_entry(&book.regions[region])),
        }
    }
}

/// What an account has of a contract in a region, and the energies that this is by.
pub(super) struct Share {
    pub region: usize,
    pub own: Energy,
    pub total: Energy,
    pub by_ace: i128,
    pub by_asoe: i128,
}

/// An accepted book seen by one account, with the energies of each book that is read.
pub(super) struct Settlement<'b> {
    pub book: &'b Book,
    pub account: u32,
    energies: PerBook<Energies>,
}

impl<'b> Settlement<'b> {
    pub(super) fn of(read: &'b Read, account: u32) -> Self {
        Settlement {
            book: &read.current,
            account,
            energies: read.map(|book| Energies::of(book, account)),
        }
    }

    /// "Header, 24 bytes: RCS; reserved byte; 16-bit version 1; interval, date and
    /// run as in the book; line count u16; account u32; reserved u32." "Constraints
    /// in book order ... Then contracts."
    pub(super) fn statement(&self) -> Statement {
        let constraints = self.book.constraints.iter();
        let contracts = self.book.contracts.iter();
        let lines: Vec<Line> = constraints
            .flat_map(|constraint| self.constraint_lines(constraint))
            .chain(contracts.flat_map(|contract| self.contract_lines(contract)))
            .collect();
        let header = Header {
            mark: *b"RCS",
            version: 1,
            interval: self.book.header.interval,
            date: self.book.header.date,
            run: self.book.header.run,
            lines: u16::try_from(lines.len()).expect("there are at most 2,152"),
            account: self.account,
            ..Header::default()
        };
        Statement { header, lines }
    }

    /// "For mode 0 one line, 1 or 2; else own units in row order (3, 4, 5; mode 2
    /// only 5), then 6, 7, 8 (mode 2 only 8)."
    fn constraint_lines(&self, constraint: &Constraint) -> Vec<Line> {
        if constraint.mode == 0 {
            return vec![self.contingency_line(constraint)];
        }
        let settled = Settled::by_mode(constraint.mode);
        let mut lines = Vec::new();
        for row in self.own_units(constraint) {
            for what in settled {
                let amount = what.unit_line(constraint, row);
                lines.push(Line {
                    unit: row.unit,
                    ..line(constraint.id, unit_part(*what), constraint.regions, amount)
                });
            }
        }
        let (own, total) = self.over(constraint.regions);
        for what in settled {
            let amount = what.residual_line(constraint, own, total);
            let part = unit_part(*what) + 3;
            lines.push(line(constraint.id, part, constraint.regions, amount));
        }
        lines
    }

    fn own_units(&self, constraint: &Constraint) -> impl Iterator<Item = &'b UnitRow> {
        let (id, account) = (constraint.id, self.account);
        let rows = self.book.units.iter();
        rows.filter(move |row| row.constraint == id && row.account == account)
    }

    /// "Contingency: ... ASOE for raise, ACE for lower, both summed over the
    /// constraint's regions." "Parts: 1 contingency by ACE, 2 by ASOE."
    fn contingency_line(&self, constraint: &Constraint) -> Line {
        let (own, total) = self.over(constraint.regions);
        let (part, amount) = match constraint.service {
            1 | 3 | 5 | 7 => (2, contingency_by_asoe(constraint, own, total)),
            _ => (1, contingency_by_ace(constraint, own, total)),
        };
        line(constraint.id, part, constraint.regions, amount)
    }

    /// "Contracts, each benefiting region rising, 9 then 10." "For 9 and 10 the one
    /// region's bit."
    fn contract_lines(&self, contract: &Contract) -> Vec<Line> {
        let shares = self.shares(contract).into_iter();
        let lines = shares.flat_map(|share| {
            let regions = 1 << share.region;
            [
                line(contract.id, 9, regions, share.by_ace),
                line(contract.id, 10, regions, share.by_asoe),
            ]
        });
        lines.collect()
    }

    /// The account's shares of a contract, "each benefiting region rising".
    pub(super) fn shares(&self, contract: &Contract) -> Vec<Share> {
        let energies = self.energies.for_contract(contract);
        let benefiting = (0..5).filter(|&region| contract.factors[region] > 0);
        let shares = benefiting.map(|region| {
            let halves = Halves::of(contract, region);
            let (own, total) = (energies.own[region], energies.total[region]);
            Share {
                region,
                own,
                total,
                by_ace: halves.by_ace(own, total),
                by_asoe: halves.by_asoe(own, total),
            }
        });
        shares.collect()
    }

    /// The account's energies in the current book and those of all, over the regions of a
    /// mask.
    pub(super) fn over(&self, mask: u8) -> (Energy, Energy) {
        let Energies { own, total } = &self.energies.current;
        let regions = || (0..5).filter(|region| mask >> region & 1 == 1);
        (
            Energy::sum(regions().map(|region| own[region])),
            Energy::sum(regions().map(|region| total[region])),
        )
    }
}

/// "Unit lines 3 FPP, 4 used, 5 unused; residual lines 6 FPP, 7 used, 8 unused":
/// a residual line's part is three more.
fn unit_part(settled: Settled) -> u8 {
    match settled {
        Settled::Fpp => 3,
        Settled::Used => 4,
        Settled::Unused => 5,
    }
}

/// A line of no unit: "unit is 0 except in parts 3 to 5".
fn line(id: u32, part: u8, regions: u8, amount: i128) -> Line {
    Line {
        id,
        part,
        regions,
        amount: in_64_bits(amount),
        ..Line::default()
    }
}

pub(super) fn in_64_bits(amount: i128) -> i64 {
    i64::try_from(amount).expect("a share of a pool fits 64 bits")
}
