//! The statement of an account, and its length. Unit rows are passed once by the check,
//! which counts the account's on the way, and once to write; the account's energy rows,
//! side by side in their order, are found by binary search, in the locked book too.

use std::slice::IterMut;

use super::check::{checked, factors, refuse_unless, totals, Of, Totals, TEST};
use super::layout::{i32_at, size_at, u32_at, u64_at, Sections};
use super::shares::{halves, share, Pools};
use crate::{Books, Refusal};

pub fn length(books: Books, account: u32) -> Result<usize, Refusal> {
    Ok(counted(books, account)?.length())
}

pub fn statement(books: Books, account: u32, buffer: &mut [u8]) -> Result<usize, Refusal> {
    let counted = counted(books, account)?;
    let Some((header, slots)) = buffer.get_mut(..counted.length()).and_then(halved) else {
        return Err(Refusal {
            number: 13,
            place: 0,
        });
    };
    *header = header_of(&counted.sections, account, counted.lines);
    let (energies, locked) = counted.energies();
    Settling {
        energies,
        locked,
        account,
        slots: slots.iter_mut(),
    }
    .write(&counted.sections);
    Ok(counted.length())
}

/// An accepted book that has a statement for the account: its sections, the account's
/// energy rows there and in the locked book, and how many lines the statement has.
pub(super) struct Counted<'b> {
    pub sections: Sections<'b>,
    own: Rows<'b>,
    locked: Option<Rows<'b>>,
    lines: usize,
}

/// An account's energy rows of a book, and the region entries.
#[derive(Clone, Copy)]
struct Rows<'b> {
    own: &'b [[u8; 24]],
    sections: Sections<'b>,
}

impl<'b> Rows<'b> {
    fn of(sections: Sections<'b>, account: u32) -> Self {
        let own = own_energy_rows(sections.energies, account);
        Rows { own, sections }
    }

    fn energies(&self) -> Energies {
        Energies {
            own: own_energy(self.own),
            total: totals(&self.sections),
        }
    }
}

/// What an account has of energy in each region, and what all have.
#[derive(Clone, Copy)]
pub(super) struct Energies {
    pub own: Totals,
    pub total: Totals,
}

impl Counted<'_> {
    /// How many bytes the statement has.
    #[inline(always)]
    fn length(&self) -> usize {
        24 + 24 * self.lines
    }

    /// The account's energies, and those of the locked book. Without a locked book no
    /// contract asks for it.
    #[inline(always)]
    pub fn energies(&self) -> (Energies, Energies) {
        let energies = self.own.energies();
        let locked = self.locked.map_or(energies, |of| of.energies());
        (energies, locked)
    }
}

/// Looks for all that comes before 12, which is not looked for: no line can pass the
/// limit, as a share of a pool is at most the pool.
#[inline(always)]
pub(super) fn counted(books: Books, account: u32) -> Result<Counted, Refusal> {
    let (mut unit_lines, mut has_locked_units) = (0, false);
    let read = checked(books, |of, owner, mode| match of {
        Of::Current => {
            unit_lines += if owner == account {
                lines_by_mode(mode)
            } else {
                0
            };
        }
        Of::Locked => has_locked_units |= owner == account,
    })?;
    let sections = read.current;
    let own = Rows::of(sections, account);
    let locked = read.locked.map(|sections| Rows::of(sections, account));
    let is_named = unit_lines != 0
        || !own.own.is_empty()
        || has_locked_units
        || locked.is_some_and(|locked| !locked.own.is_empty());
    refuse_unless(is_named, 11, 0)?;
    Ok(Counted {
        sections,
        own,
        locked,
        lines: unit_lines + common_lines(&sections),
    })
}

/// The header and the lines of a statement.
fn halved(statement: &mut [u8]) -> Option<(&mut [u8; 24], &mut [[u8; 24]])> {
    let (header, lines) = statement.split_first_chunk_mut()?;
    Some((header, lines.as_chunks_mut().0))
}

/// How many lines a unit has, and an account besides, by the mode of a constraint.
#[inline(always)]
fn lines_by_mode(mode: u8) -> usize {
    if mode == 1 {
        3
    } else {
        1
    }
}

/// The lines that every account has.
fn common_lines(sections: &Sections) -> usize {
    let constraints = sections.constraints.iter();
    let contracts = sections.contracts.iter();
    let benefiting = |record| {
        factors(record)
            .iter()
            .filter(|&&factor| factor != 0)
            .count()
    };
    let by_constraint: usize = constraints.map(|record| lines_by_mode(record[6])).sum();
    let by_contract: usize = contracts.map(|record| 2 * benefiting(record)).sum();
    by_constraint + by_contract
}

fn own_energy_rows(rows: &[[u8; 24]], account: u32) -> &[[u8; 24]] {
    let start = rows.partition_point(|row| u32_at(row, 0) < account);
    let own = rows[start..]
        .iter()
        .take_while(|row| u32_at(row, 0) == account);
    let count = own.count();
    &rows[start..start + count]
}

fn own_energy(rows: &[[u8; 24]]) -> Totals {
    let mut own = [[0; 3]; 5];
    for row in rows {
        own[usize::from(row[4])] = [
            size_at(row, 8),
            u32_at(row, 12),
            size_at(row, 16) + u32_at(row, 20),
        ];
    }
    own
}

fn header_of(sections: &Sections, account: u32, lines: usize) -> [u8; 24] {
    let mut header = [0; 24];
    header[..6].copy_from_slice(b"RCS\0\x01\0");
    header[6..14].copy_from_slice(&sections.header[6..14]);
    header[14..16].copy_from_slice(&(lines as u16).to_le_bytes());
    header[16..20].copy_from_slice(&account.to_le_bytes());
    header
}

/// Writing the lines of an account.
struct Settling<'l> {
    energies: Energies,
    locked: Energies,
    account: u32,
    slots: IterMut<'l, [u8; 24]>,
}

impl Settling<'_> {
    fn write(mut self, sections: &Sections) {
        let mut units = sections.units;
        for record in sections.constraints {
            match record[6] {
                0 => self.contingency(record),
                1 => self.factored(record, &mut units),
                _ => self.default(record, &mut units),
            }
        }
        for record in sections.contracts {
            self.contract(record);
        }
    }

    #[inline(always)]
    fn line(&mut self, id: u32, part: u8, regions: u8, unit: u32, amount: i64) {
        put_line(&mut self.slots, (id, part, regions, unit), amount);
    }

    /// Own and total energy of a kind over the regions of a mask.
    #[inline(always)]
    fn over(&self, regions: u8, kind: usize) -> (u64, u64) {
        let mut over = (0, 0);
        for region in 0..5 {
            if regions >> region & 1 == 1 {
                over.0 += u64::from(self.energies.own[region][kind]);
                over.1 += u64::from(self.energies.total[region][kind]);
            }
        }
        over
    }

    fn contingency(&mut self, record: &[u8; 40]) {
        let [service, regions] = [record[4], record[5]];
        let kind = usize::from(service % 2);
        let (own, total) = self.over(regions, kind);
        let amount = -(share(u64_at(record, 8), own, total) as i64);
        self.line(u32_at(record, 0), 1 + kind as u8, regions, 0, amount);
    }

    fn factored(&mut self, record: &[u8; 40], units: &mut &[[u8; 20]]) {
        let (id, regions) = (u32_at(record, 0), record[5]);
        let pools = Pools::of(record);
        while let Some(row) = take_row(units, id) {
            if u32_at(row, 8) == self.account {
                let unit = u32_at(row, 4);
                let amounts = pools.by_factors(i32_at(row, 12), size_at(row, 16));
                for (part, amount) in (3..).zip(amounts) {
                    self.line(id, part, regions, unit, amount);
                }
            }
        }
        let (own, total) = self.over(regions, 2);
        for (part, pool) in (6..).zip(pools.residual(record)) {
            let size = share(pool.unsigned_abs(), own, total) as i64;
            self.line(id, part, regions, 0, size * pool.signum());
        }
    }

    fn default(&mut self, record: &[u8; 40], units: &mut &[[u8; 20]]) {
        let (id, regions) = (u32_at(record, 0), record[5]);
        let pools = Pools::of(record);
        while let Some(row) = take_row(units, id) {
            if u32_at(row, 8) == self.account {
                let [.., unused] = pools.by_factors(0, size_at(row, 16));
                self.line(id, 5, regions, u32_at(row, 4), unused);
            }
        }
        let (own, total) = self.over(regions, 2);
        let [.., pool] = pools.residual(record);
        let amount = -(share(pool.unsigned_abs(), own, total) as i64);
        self.line(id, 8, regions, 0, amount);
    }

    fn contract(&mut self, record: &[u8; 36]) {
        let (id, payment) = (u32_at(record, 0), u64_at(record, 8));
        let Energies { own, total } = match record[4] {
            TEST => &self.locked,
            _ => &self.energies,
        };
        for (region, factor) in factors(record).into_iter().enumerate() {
            if factor == 0 {
                continue;
            }
            for (kind, half) in halves(payment, factor).into_iter().enumerate() {
                let (own, total) = (own[region][kind].into(), total[region][kind].into());
                let amount = -(share(half, own, total) as i64);
                let name = (id, 9 + kind as u8, 1 << region, 0);
                put_line(&mut self.slots, name, amount);
            }
        }
    }
}

/// Fills the next slot: id, part, regions and unit, and then the amount.
#[inline(always)]
fn put_line(
    slots: &mut IterMut<[u8; 24]>,
    (id, part, regions, unit): (u32, u8, u8, u32),
    amount: i64,
) {
    let slot = slots.next().expect("the lines were counted");
    let front = u64::from(id) | u64::from(part) << 32 | u64::from(regions) << 40;
    slot[..8].copy_from_slice(&front.to_le_bytes());
    slot[8..16].copy_from_slice(&u64::from(unit).to_le_bytes());
    slot[16..].copy_from_slice(&amount.to_le_bytes());
}

/// Takes the row at the front if it names the constraint.
#[inline(always)]
pub(super) fn take_row<'b>(units: &mut &'b [[u8; 20]], constraint: u32) -> Option<&'b [u8; 20]> {
    let (row, rest) = units.split_first()?;
    if u32_at(row, 0) != constraint {
        return None;
    }
    *units = rest;
    Some(row)
}
