//! Checks 1 to 10, 17 and 18 of a book, with the locked one beside it.

use super::locked::{locked_beside, Read};
use super::{refuse_at, refuse_unless};
use crate::book::{
    Book, Constraint, Contract, EnergyRow, Header, RegionEntry, Section, Sections, UnitRow,
};
use crate::field::Field;
use crate::{Books, Refusal};

/// "Book shorter than 84 bytes": the header and the five region entries.
const SHORTEST: usize = 84;

/// The most energy of a row or a region, in kWh.
pub(super) const ENERGY_LIMIT: i32 = 20_000_000;

/// Factors and usage are in millionths: this is one whole.
pub(super) const WHOLE: i32 = 1_000_000;

/// The most money of a cost or a payment.
pub(super) const MONEY_LIMIT: i64 = 50_000_000_000;

/// "Numbers 1 to 10 come from every call on a book."
pub fn check<'b>(books: impl Into<Books<'b>>) -> Result<(), Refusal> {
    read(books).map(|_| ())
}

/// The books that a call reads, of a book that is accepted. What the locked book is
/// refused by comes "after 9 and before 10".
pub(super) fn read<'b>(books: impl Into<Books<'b>>) -> Result<Read, Refusal> {
    let Books { book, locked } = books.into();
    let current = check_to_9(book)?;
    let locked = locked_beside(&current, locked)?;
    let read = Read { current, locked };
    refuse_at(10, zero_to_divide_by(&read))?;
    Ok(read)
}

/// Checks 1 to 9 of one book. "Each check runs over the whole book before the next
/// number; within it the lowest offset is reported."
pub(super) fn check_to_9(bytes: &[u8]) -> Result<Book, Refusal> {
    refuse_unless(1, bytes.len() >= SHORTEST)?;
    let header = Header::read(&mut &bytes[..]);
    refuse_unless(2, mark_is_right(&header))?;
    refuse_unless(3, header_is_in_range(&header))?;
    let sections = Sections::of(&header);
    refuse_unless(4, bytes.len() == sections.book_length())?;

    let book = Book::decode(bytes);
    refuse_at(5, field_outside_rules(&book, &sections))?;
    refuse_at(6, record_not_rising(&book, &sections))?;
    refuse_at(7, unit_row_without_constraint(&book, &sections))?;
    refuse_at(8, failing_factor_sums(&book, &sections))?;
    refuse_at(9, entry_unlike_its_rows(&book, &sections))?;
    Ok(book)
}

// Check 2: "mark, version or a reserved header byte wrong".

/// "The three letters RCB; reserved byte; 16-bit version 1; ... reserved u16."
fn mark_is_right(header: &Header) -> bool {
    header.mark == *b"RCB"
        && header.reserved == 0
        && header.version == 1
        && header.reserved_end == 0
}

// Check 3: "interval, date, run or a count out of its range".

/// "Counts u16 of constraints (0 to 64), unit rows (0 to 600), energy rows (0 to
/// 1,024), contracts (0 to 16)."
fn header_is_in_range(header: &Header) -> bool {
    period_is_in_range(header.interval, header.date, header.run)
        && header.constraints <= 64
        && header.units <= 600
        && header.energies <= 1_024
        && header.contracts <= 16
}

/// "Interval u16, 1 to 288; date u32 as YYYYMMDD, a real date in 2025 to 2099;
/// run u16, 1 to 99."
pub(super) fn period_is_in_range(interval: u16, date: u32, run: u16) -> bool {
    (1..=288).contains(&interval) && is_date_in_range(date) && (1..=99).contains(&run)
}

fn is_date_in_range(date: u32) -> bool {
    let (year, month, day) = (date / 10_000, date / 100 % 100, date % 100);
    (2025..=2099).contains(&year) && (1..=days_in_month(year, month)).contains(&day)
}

/// The days of a month of the Gregorian calendar; none if there is no such month.
fn days_in_month(year: u32, month: u32) -> u32 {
    let leap = year.is_multiple_of(4) && (!year.is_multiple_of(100) || year.is_multiple_of(400));
    match month {
        1 | 3 | 5 | 7 | 8 | 10 | 12 => 31,
        4 | 6 | 9 | 11 => 30,
        2 if leap => 29,
        2 => 28,
        _ => 0,
    }
}

// Check 5: "a field outside the rules above", at "that record's offset".

fn field_outside_rules(book: &Book, at: &Sections) -> Option<usize> {
    lowest([
        first_breaking(&at.regions, &book.regions, entry_keeps_rules),
        first_breaking(&at.constraints, &book.constraints, constraint_keeps_rules),
        first_breaking(&at.units, &book.units, unit_row_keeps_rules),
        first_breaking(&at.energies, &book.energies, energy_row_keeps_rules),
        first_breaking(&at.contracts, &book.contracts, contract_keeps_rules),
    ])
}

/// "The lowest offset is reported", of those found in the sections.
fn lowest<const N: usize>(found: [Option<usize>; N]) -> Option<usize> {
    found.into_iter().flatten().min()
}

/// The offset of the first record that does not keep the rule.
fn first_breaking<R>(
    section: &Section,
    records: &[R],
    keeps: impl Fn(&R) -> bool,
) -> Option<usize> {
    let record = records.iter().position(|record| !keeps(record))?;
    Some(section.offset(record))
}

/// "Total ACE (i32, -20,000,000 to 0), total ASOE (i32, 0 to 20,000,000),
/// residual total (i32, 0 to 20,000,000)."
fn entry_keeps_rules(entry: &RegionEntry) -> bool {
    (-ENERGY_LIMIT..=0).contains(&entry.ace)
        && (0..=ENERGY_LIMIT).contains(&entry.asoe)
        && (0..=ENERGY_LIMIT).contains(&entry.residual)
}

/// "Id u32 from 1; service u8, 1 to 10; regions u8; mode u8; reserved byte; cost
/// i64, 0 to 50,000,000,000; price u32, to 2,500,000; RCR u32, to 10,000,000;
/// usage u32, to 1,000,000; RCF i32, within 1,000,000 either way; DRCF i32,
/// -1,000,000 to 0; reserved u32. Price times RCR is at most 6,000,000,000,000."
/// "The regions of a constraint are one bit each ...; the value is 1 to 31."
fn constraint_keeps_rules(constraint: &Constraint) -> bool {
    constraint.id >= 1
        && (1..=10).contains(&constraint.service)
        && (1..=31).contains(&constraint.regions)
        && constraint.reserved == 0
        && (0..=MONEY_LIMIT).contains(&constraint.cost)
        && constraint.price <= 2_500_000
        && constraint.rcr <= 10_000_000
        && constraint.usage <= 1_000_000
        && (-WHOLE..=WHOLE).contains(&constraint.rcf)
        && (-WHOLE..=0).contains(&constraint.drcf)
        && constraint.reserved_end == 0
        && u64::from(constraint.price) * u64::from(constraint.rcr) <= 6_000_000_000_000
        && mode_fits(constraint)
}

/// "Mode 0 (contingency) goes with services 1 to 8 and has price, RCR, usage,
/// RCF, DRCF all 0. Mode 1 (factored) and mode 2 (default, no factors received)
/// go with 9 and 10. Mode 2 has price, RCR, usage, RCF all 0."
fn mode_fits(constraint: &Constraint) -> bool {
    let regulation = matches!(constraint.service, 9 | 10);
    let no_factors = constraint.price == 0
        && constraint.rcr == 0
        && constraint.usage == 0
        && constraint.rcf == 0;
    match constraint.mode {
        0 => !regulation && no_factors && constraint.drcf == 0,
        1 => regulation,
        2 => regulation && no_factors,
        _ => false,
    }
}

/// "Constraint id, unit id, account (u32, each from 1); CF i32, within 1,000,000
/// either way; DCF i32, -1,000,000 to 0."
fn unit_row_keeps_rules(row: &UnitRow) -> bool {
    row.constraint >= 1
        && row.unit >= 1
        && row.account >= 1
        && (-WHOLE..=WHOLE).contains(&row.cf)
        && (-WHOLE..=0).contains(&row.dcf)
}

/// "Account u32 from 1; region u8, 0 to 4; three reserved bytes; ACE (i32,
/// -20,000,000 to 0); ASOE (i32, 0 to 20,000,000); residual ACE, from ACE up to
/// 0; residual ASOE, from 0 up to ASOE."
fn energy_row_keeps_rules(row: &EnergyRow) -> bool {
    row.account >= 1
        && row.region <= 4
        && row.reserved == [0; 3]
        && (-ENERGY_LIMIT..=0).contains(&row.ace)
        && (0..=ENERGY_LIMIT).contains(&row.asoe)
        && (row.ace..=0).contains(&row.residual_ace)
        && (0..=row.asoe).contains(&row.residual_asoe)
}

/// "Id u32 from 1; kind u8, 1 ordinary or 2 test; three reserved bytes; payment
/// i64, 0 to 50,000,000,000; five regional benefit factors u32, each at most
/// 1,000,000, together exactly 1,000,000."
fn contract_keeps_rules(contract: &Contract) -> bool {
    let together: u64 = contract.factors.iter().copied().map(u64::from).sum();
    contract.id >= 1
        && matches!(contract.kind, 1 | 2)
        && contract.reserved == [0; 3]
        && (0..=MONEY_LIMIT).contains(&contract.payment)
        && contract.factors.iter().all(|&factor| factor <= 1_000_000)
        && together == 1_000_000
}

// Check 6: "constraint ids, (constraint, unit) pairs, (account, region) pairs or
// contract ids not strictly rising", at the "offset of the record not above its
// forerunner".

fn record_not_rising(book: &Book, at: &Sections) -> Option<usize> {
    lowest([
        first_not_rising(&at.constraints, &book.constraints, |of| of.id),
        first_not_rising(&at.units, &book.units, |of| (of.constraint, of.unit)),
        first_not_rising(&at.energies, &book.energies, |of| (of.account, of.region)),
        first_not_rising(&at.contracts, &book.contracts, |of| of.id),
    ])
}

/// Pairs compare by their first number, then by their second.
fn first_not_rising<R, K: Ord>(
    section: &Section,
    records: &[R],
    key: impl Fn(&R) -> K,
) -> Option<usize> {
    let forerunner = records
        .windows(2)
        .position(|pair| key(&pair[1]) <= key(&pair[0]))?;
    Some(section.offset(forerunner + 1))
}

// Check 7: "a unit row names no constraint here, or one of mode 0", at "that
// row's offset".

fn unit_row_without_constraint(book: &Book, at: &Sections) -> Option<usize> {
    first_breaking(&at.units, &book.units, |row| {
        book.constraints
            .iter()
            .any(|constraint| constraint.id == row.constraint && constraint.mode != 0)
    })
}

// Check 8: "factor sums fail", at "the constraint's offset".

fn failing_factor_sums(book: &Book, at: &Sections) -> Option<usize> {
    first_breaking(&at.constraints, &book.constraints, |constraint| {
        let rows = || {
            book.units
                .iter()
                .filter(|row| row.constraint == constraint.id)
        };
        match constraint.mode {
            0 => true,
            1 => factors_balance(constraint, rows()) && defaults_make_whole(constraint, rows()),
            _ => rows().all(|row| row.cf == 0) && defaults_make_whole(constraint, rows()),
        }
    })
}

/// "Mode 1: CFs + RCF = 0; negative CFs + min(0, RCF) = -1,000,000."
fn factors_balance<'b>(constraint: &Constraint, rows: impl Iterator<Item = &'b UnitRow>) -> bool {
    let (mut all, mut negative) = (0, 0);
    for factor in rows.map(|row| row.cf).chain([constraint.rcf]) {
        all += i64::from(factor);
        negative += i64::from(factor.min(0));
    }
    all == 0 && negative == -i64::from(WHOLE)
}

/// "Modes 1 and 2: DCFs + DRCF = -1,000,000."
fn defaults_make_whole<'b>(
    constraint: &Constraint,
    rows: impl Iterator<Item = &'b UnitRow>,
) -> bool {
    let units: i64 = rows.map(|row| i64::from(row.dcf)).sum();
    units + i64::from(constraint.drcf) == -i64::from(WHOLE)
}

// Check 9: "a region entry differs from its rows' sums", at "the entry's offset".

fn entry_unlike_its_rows(book: &Book, at: &Sections) -> Option<usize> {
    let sums = sums_by_region(&book.energies);
    let entry = (0..5).find(|&region| entry_totals(&book.regions[region]) != sums[region])?;
    Some(at.regions.offset(entry))
}

/// ACE, ASOE and residual total. 1,024 rows may pass what 32 bits hold.
type Totals = [i64; 3];

fn entry_totals(entry: &RegionEntry) -> Totals {
    [entry.ace, entry.asoe, entry.residual].map(i64::from)
}

/// "Residual total (...; sum of |residual ACE| + |residual ASOE|)." "Missing
/// energy rows count as 0."
fn sums_by_region(rows: &[EnergyRow]) -> [Totals; 5] {
    let mut sums = [Totals::default(); 5];
    for row in rows {
        let sum = &mut sums[usize::from(row.region)];
        sum[0] += i64::from(row.ace);
        sum[1] += i64::from(row.asoe);
        sum[2] += i64::from(row.residual_ace).abs() + i64::from(row.residual_asoe).abs();
    }
    sums
}

// Check 10: "a total to divide by is zero", at the "constraint's or contract's
// offset". "It applies though the pool is 0." "Check 10 for kind 2 reads the locked
// totals."

fn zero_to_divide_by(read: &Read) -> Option<usize> {
    let book = &read.current;
    let at = Sections::of(&book.header);
    lowest([
        first_breaking(&at.constraints, &book.constraints, |constraint| {
            constraint_divisor(constraint, &book.regions) != 0
        }),
        first_breaking(&at.contracts, &book.contracts, |contract| {
            contract_divides(contract, &read.for_contract(contract).regions)
        }),
    ])
}

/// "Raise contingency, total ASOE over its regions; lower, total ACE; regulation,
/// residual total." "Services 1 to 8 are ... each raise (odd) then lower (even);
/// 9 and 10 are regulation." "One bit each, bit 0 for NSW1."
fn constraint_divisor(constraint: &Constraint, entries: &[RegionEntry; 5]) -> i64 {
    let total = |entry: &RegionEntry| match constraint.service {
        9 | 10 => entry.residual,
        1 | 3 | 5 | 7 => entry.asoe,
        _ => entry.ace,
    };
    (0..5)
        .filter(|region| constraint.regions >> region & 1 == 1)
        .map(|region| i64::from(total(&entries[region])))
        .sum()
}

/// "Contract, total ACE or ASOE in a region whose benefit factor isn't 0."
fn contract_divides(contract: &Contract, entries: &[RegionEntry; 5]) -> bool {
    let mut benefits = contract.factors.iter().zip(entries);
    benefits.all(|(&factor, entry)| factor == 0 || (entry.ace != 0 && entry.asoe != 0))
}
