//! Checks 1 to 10, 17 and 18, each section passed once.
//!
//! Sections are passed in the order in which they stand, so the first fault of 5 is
//! the one to report, and ends it. Of 6 to 10 the first place is noted on the way;
//! what comes out wrong after an earlier number failed is never asked for. The locked
//! book, where it is read, is passed in the same way, once the other has kept 1 to 9.

use super::layout::{
    i32_at, size_at, u16_at, u32_at, u64_at, Sections, CONSTRAINTS_AT, ENTRIES_AT,
};
use crate::{Books, Refusal};

const SHORTEST: usize = 84;
pub(super) const ENERGY_LIMIT: u32 = 20_000_000;
pub(super) const MONEY_LIMIT: u64 = 50_000_000_000;
pub(super) const WHOLE: u64 = 1_000_000;

/// The kind of a contract that is shared by the locked book's energies.
pub(super) const TEST: u8 = 2;

pub fn check(books: Books) -> Result<(), Refusal> {
    checked(books, |_, _, _| {}).map(|_| ())
}

/// Which of the two books a row is of.
#[derive(Clone, Copy, PartialEq, Eq)]
pub(super) enum Of {
    Current,
    Locked,
}

/// The books that are read: the locked one where the other has a contract of kind 2.
pub(super) struct Read<'b> {
    pub current: Sections<'b>,
    pub locked: Option<Sections<'b>>,
}

/// The sections of an accepted book, and of the locked one where it is read. On the way
/// `on_unit` is shown the account of each unit row of both, and the mode of its
/// constraint.
pub(super) fn checked<'b>(
    books: Books<'b>,
    mut on_unit: impl FnMut(Of, u32, u8),
) -> Result<Read<'b>, Refusal> {
    let on_current = |account, mode| on_unit(Of::Current, account, mode);
    let (current, first) = passed(books.book, on_current)?;
    let on_locked = |account, mode| on_unit(Of::Locked, account, mode);
    let locked = match first.test {
        0 => None,
        place => Some(locked_at(place, &current, books.locked, on_locked)?),
    };
    let divisor = locked.map_or(0, |locked| test_without_energy(&current, &locked));
    let places = [first.divisor, divisor].into_iter();
    let lowest = places.filter(|&place| place != 0).min().unwrap_or(0);
    refuse_unless(lowest == 0, 10, lowest)?;
    Ok(Read { current, locked })
}

/// The locked book, which is read for the contract at this place. Apart from the rest, so
/// that a book by itself is passed as fast as if there were none.
#[inline(never)]
fn locked_at<'b>(
    place: usize,
    current: &Sections,
    locked: &'b [u8],
    on_unit: impl FnMut(u32, u8),
) -> Result<Sections<'b>, Refusal> {
    refuse_unless(!locked.is_empty(), 17, place)?;
    let passed = passed(locked, on_unit).ok().map(|(sections, _)| sections);
    let locked = passed.filter(|locked| {
        // Interval and date stand side by side.
        let [of, with] = [locked.header, current.header];
        of[6..12] == with[6..12] && u16_at(of, 12) <= u16_at(with, 12)
    });
    locked.ok_or(Refusal { number: 18, place })
}

/// The place of the first contract of kind 2 that benefits a region where the locked book
/// has no energy to divide by; 0 if there is none.
fn test_without_energy(current: &Sections, locked: &Sections) -> usize {
    let totals = totals(locked);
    let divides = not_zero(&totals, 0) & not_zero(&totals, 1);
    let mut contracts = current.contracts.iter();
    let found = contracts.position(|record| record[4] == TEST && !has_energy(record, divides));
    found.map_or(0, |index| current.contracts_at() + 36 * index)
}

/// Checks 1 to 9 of one book: its sections, and what was noted of check 10 and of the
/// contracts of kind 2 on the way.
fn passed(book: &[u8], on_unit: impl FnMut(u32, u8)) -> Result<(Sections<'_>, Faults), Refusal> {
    let sections = laid_out(book)?;
    let totals = entries(&sections)?;
    let mut first = Faults::default();
    constraints(&sections, &totals, &mut first)?;
    units(&sections, on_unit, &mut first)?;
    let sums = energies(&sections, &mut first)?;
    contracts(&sections, &totals, &mut first)?;
    for (index, sum) in sums.iter().enumerate() {
        if *sum != totals[index].map(u64::from) {
            note(&mut first.entry, ENTRIES_AT + 12 * index);
        }
    }
    first.lowest_number()?;
    Ok((sections, first))
}

/// The first place at which each of 6 to 10 fails, the last for all that the book's own
/// energies are divided by, and that of the first contract of kind 2; 0, where no record
/// stands, if there is none.
#[derive(Default)]
struct Faults {
    order: usize,
    name: usize,
    factors: usize,
    entry: usize,
    divisor: usize,
    test: usize,
}

impl Faults {
    /// Of 6 to 9.
    fn lowest_number(&self) -> Result<(), Refusal> {
        let places = [self.order, self.name, self.factors, self.entry];
        match (6..).zip(places).find(|&(_, place)| place != 0) {
            Some((number, place)) => Err(Refusal { number, place }),
            None => Ok(()),
        }
    }
}

#[cold]
fn note(first: &mut usize, place: usize) {
    if *first == 0 {
        *first = place;
    }
}

pub(super) fn refuse_unless(holds: bool, number: u8, place: usize) -> Result<(), Refusal> {
    if holds {
        Ok(())
    } else {
        Err(Refusal { number, place })
    }
}

/// Checks 1 to 4.
fn laid_out(book: &[u8]) -> Result<Sections<'_>, Refusal> {
    refuse_unless(book.len() >= SHORTEST, 1, 0)?;
    let header = book.first_chunk().expect("it has 84 bytes");
    let mark = u64_at(header, 0) << 16 == u64::from_le_bytes(*b"\0\0RCB\0\x01\0");
    refuse_unless(mark & (u16_at(header, 22) == 0), 2, 0)?;
    let in_range = (u16_at(header, 6).wrapping_sub(1) < 288)
        & is_date(u32_at(header, 8))
        & (u16_at(header, 12).wrapping_sub(1) < 99)
        & (u16_at(header, 14) <= 64)
        & (u16_at(header, 16) <= 600)
        & (u16_at(header, 18) <= 1_024)
        & (u16_at(header, 20) <= 16);
    refuse_unless(in_range, 3, 0)?;
    Sections::of(header, book).ok_or(Refusal {
        number: 4,
        place: 0,
    })
}

/// From 2025 to 2099 every fourth year is a leap year.
pub(super) fn is_date(date: u32) -> bool {
    let (year, month, day) = (date / 10_000, date / 100 % 100, date % 100);
    let days = match month {
        1 | 3 | 5 | 7 | 8 | 10 | 12 => 31,
        4 | 6 | 9 | 11 => 30,
        2 => 28 + u32::from(year % 4 == 0),
        _ => 0,
    };
    (2025..=2099).contains(&year) & (1..=days).contains(&day)
}

/// Sizes of ACE and ASOE, and the residual total, of each region.
pub(super) type Totals = [[u32; 3]; 5];

pub(super) fn totals(sections: &Sections) -> Totals {
    let mut totals = [[0; 3]; 5];
    for (total, entry) in totals.iter_mut().zip(sections.entries) {
        *total = [size_at(entry, 0), u32_at(entry, 4), u32_at(entry, 8)];
    }
    totals
}

fn entries(sections: &Sections) -> Result<Totals, Refusal> {
    let totals = totals(sections);
    for (index, total) in totals.iter().enumerate() {
        let holds = total.iter().all(|&size| size <= ENERGY_LIMIT);
        refuse_unless(holds, 5, ENTRIES_AT + 12 * index)?;
    }
    Ok(totals)
}

/// The regions in which a total is not 0, as a mask.
fn not_zero(totals: &Totals, kind: usize) -> u8 {
    (0..5).fold(0, |mask, region| {
        mask | u8::from(totals[region][kind] != 0) << region
    })
}

fn constraints(sections: &Sections, totals: &Totals, first: &mut Faults) -> Result<(), Refusal> {
    let [ace, asoe, residual] = [0, 1, 2].map(|kind| not_zero(totals, kind));
    let mut before = 0;
    for (index, record) in sections.constraints.iter().enumerate() {
        let place = CONSTRAINTS_AT + 40 * index;
        refuse_unless(constraint_keeps_rules(record), 5, place)?;
        let id = u32_at(record, 0);
        if id <= before {
            note(&mut first.order, place);
        }
        before = id;
        let [service, regions] = [record[4], record[5]];
        let divides = match service {
            9.. => residual,
            _ if service % 2 == 1 => asoe,
            _ => ace,
        };
        if regions & divides == 0 {
            note(&mut first.divisor, place);
        }
    }
    Ok(())
}

fn constraint_keeps_rules(record: &[u8; 40]) -> bool {
    let [service, regions, mode] = [record[4], record[5], record[6]];
    let (price, rcr) = (u32_at(record, 16), u32_at(record, 20));
    let usage = u32_at(record, 24);
    let (rcf, drcf) = (u32_at(record, 28), size_at(record, 32));
    let factored = price | rcr | usage | rcf;
    let regulation = service.wrapping_sub(9) < 2;
    let mode_fits = match mode {
        0 => (service.wrapping_sub(1) < 8) & (factored | drcf == 0),
        1 => regulation,
        2 => regulation & (factored == 0),
        _ => false,
    };
    mode_fits
        & (u32_at(record, 0) != 0)
        & (regions.wrapping_sub(1) < 31)
        & (record[7] == 0)
        & (u64_at(record, 8) <= MONEY_LIMIT)
        & (price <= 2_500_000)
        & (rcr <= 10_000_000)
        & (usage <= 1_000_000)
        & (rcf.wrapping_add(1_000_000) <= 2_000_000)
        & (drcf <= 1_000_000)
        & (u32_at(record, 36) == 0)
        & (u64::from(price) * u64::from(rcr) <= 6_000_000_000_000)
}

/// A pair of numbers side by side in a record, to be compared as a pair: the first
/// one has more weight.
#[inline(always)]
fn pair<const N: usize>(record: &[u8; N]) -> u64 {
    u64_at(record, 0).rotate_left(32)
}

fn units(
    sections: &Sections,
    mut on_unit: impl FnMut(u32, u8),
    first: &mut Faults,
) -> Result<(), Refusal> {
    let start = sections.units_at();
    let mut walk = Walk {
        constraints: sections.constraints,
        index: 0,
    };
    let mut current = walk.current();
    let mut sums = Sums::default();
    let mut before = 0;
    for (index, record) in sections.units.iter().enumerate() {
        let place = start + 20 * index;
        refuse_unless(unit_row_keeps_rules(record), 5, place)?;
        let key = pair(record);
        if key <= before {
            note(&mut first.order, place);
        }
        before = key;
        let constraint = u32_at(record, 0);
        if constraint != current.id {
            current = walk.go_to(constraint, sums, first);
            sums = Sums::default();
            if constraint != current.id {
                note(&mut first.name, place);
            }
        }
        sums.add(i32_at(record, 12), size_at(record, 16));
        on_unit(u32_at(record, 8), current.mode);
    }
    walk.go_to_end(sums, first);
    Ok(())
}

#[inline(always)]
fn unit_row_keeps_rules(record: &[u8; 20]) -> bool {
    (u32_at(record, 0) != 0)
        & (u32_at(record, 4) != 0)
        & (u32_at(record, 8) != 0)
        & (u32_at(record, 12).wrapping_add(1_000_000) <= 2_000_000)
        & (size_at(record, 16) <= 1_000_000)
}

/// The factors of the unit rows of a constraint: sizes of CFs above and below 0, and
/// of DCFs.
#[derive(Clone, Copy, Default)]
struct Sums {
    above: u64,
    below: u64,
    default: u64,
}

impl Sums {
    #[inline(always)]
    fn add(&mut self, cf: i32, default: u32) {
        self.above += u64::from(cf.max(0).unsigned_abs());
        self.below += u64::from(cf.min(0).unsigned_abs());
        self.default += u64::from(default);
    }

    fn hold(self, constraint: &[u8; 40]) -> bool {
        let mode = constraint[6];
        if mode == 0 {
            return true;
        }
        let factors_hold = match mode {
            1 => {
                let mut all = self;
                all.add(i32_at(constraint, 28), 0);
                (all.above == WHOLE) & (all.below == WHOLE)
            }
            _ => self.above | self.below == 0,
        };
        factors_hold & (self.default + u64::from(size_at(constraint, 32)) == WHOLE)
    }
}

/// A constraint that rows may name. Without one, the id is 0, which no row has.
struct Current {
    id: u32,
    mode: u8,
}

/// Goes through the constraints beside the unit rows.
struct Walk<'b> {
    constraints: &'b [[u8; 40]],
    index: usize,
}

impl Walk<'_> {
    fn current(&self) -> Current {
        let (id, mode) = match self.constraints.get(self.index) {
            Some(record) if record[6] != 0 => (u32_at(record, 0), record[6]),
            _ => (0, 0),
        };
        Current { id, mode }
    }

    /// Goes on to the first constraint whose id is not below this one. The sums are
    /// those of the current one; any other that is passed has no rows.
    #[inline(never)]
    fn go_to(&mut self, id: u32, mut sums: Sums, first: &mut Faults) -> Current {
        while let Some(record) = self.constraints.get(self.index) {
            if u32_at(record, 0) >= id {
                break;
            }
            self.pass(record, sums, first);
            sums = Sums::default();
        }
        self.current()
    }

    fn go_to_end(&mut self, mut sums: Sums, first: &mut Faults) {
        while let Some(record) = self.constraints.get(self.index) {
            self.pass(record, sums, first);
            sums = Sums::default();
        }
    }

    /// Judges the current constraint by the sums of its rows.
    fn pass(&mut self, record: &[u8; 40], sums: Sums, first: &mut Faults) {
        if !sums.hold(record) {
            note(&mut first.factors, CONSTRAINTS_AT + 40 * self.index);
        }
        self.index += 1;
    }
}

/// The sums of ACE, ASOE and residual sizes by region.
fn energies(sections: &Sections, first: &mut Faults) -> Result<[[u64; 3]; 5], Refusal> {
    let start = sections.energies_at();
    // Eight, so that three bits of the region are an index.
    let mut sums = [[0; 3]; 8];
    let mut before = 0;
    for (index, record) in sections.energies.iter().enumerate() {
        let place = start + 24 * index;
        // The region and its three reserved bytes, as one number.
        let region = u32_at(record, 4);
        let (ace, asoe) = (size_at(record, 8), u32_at(record, 12));
        let (residual_ace, residual_asoe) = (size_at(record, 16), u32_at(record, 20));
        let holds = (u32_at(record, 0) != 0)
            & (region <= 4)
            & (ace <= ENERGY_LIMIT)
            & (asoe <= ENERGY_LIMIT)
            & (residual_ace <= ace)
            & (residual_asoe <= asoe);
        refuse_unless(holds, 5, place)?;
        let key = pair(record);
        if key <= before {
            note(&mut first.order, place);
        }
        before = key;
        let sum: &mut [u64; 3] = &mut sums[(region & 7) as usize];
        sum[0] += u64::from(ace);
        sum[1] += u64::from(asoe);
        sum[2] += u64::from(residual_ace + residual_asoe);
    }
    Ok(*sums.first_chunk().expect("eight are more than five"))
}

fn contracts(sections: &Sections, totals: &Totals, first: &mut Faults) -> Result<(), Refusal> {
    let start = sections.contracts_at();
    let divides = not_zero(totals, 0) & not_zero(totals, 1);
    let mut before = 0;
    for (index, record) in sections.contracts.iter().enumerate() {
        let place = start + 36 * index;
        let id = u32_at(record, 0);
        let factors = factors(record);
        // The kind and its three reserved bytes, as one number.
        let holds = (id != 0)
            & (u32_at(record, 4).wrapping_sub(1) < 2)
            & (u64_at(record, 8) <= MONEY_LIMIT)
            & factors.iter().all(|&factor| factor <= 1_000_000)
            & (factors.iter().map(|&factor| u64::from(factor)).sum::<u64>() == 1_000_000);
        refuse_unless(holds, 5, place)?;
        if id <= before {
            note(&mut first.order, place);
        }
        before = id;
        if record[4] == TEST {
            note(&mut first.test, place);
        } else if !has_energy(record, divides) {
            note(&mut first.divisor, place);
        }
    }
    Ok(())
}

/// Whether a contract benefits no region but those of the mask.
#[inline(always)]
fn has_energy(record: &[u8; 36], divides: u8) -> bool {
    let factors = factors(record);
    (0..5).all(|region| factors[region] == 0 || divides >> region & 1 == 1)
}

/// The benefit factors of a contract.
#[inline(always)]
pub(super) fn factors(record: &[u8; 36]) -> [u32; 5] {
    [
        u32_at(record, 16),
        u32_at(record, 20),
        u32_at(record, 24),
        u32_at(record, 28),
        u32_at(record, 32),
    ]
}
