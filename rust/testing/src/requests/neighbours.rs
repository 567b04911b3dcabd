//! Changes of an accepted book that one account's statement must not show.
//!
//! They leave what is public, the date, interval and run, the region entries, the
//! constraints and the contracts, and they leave the account's own rows. All the
//! other rows are its neighbours', and any of that may become different so long
//! as the book stays accepted: energies within the region totals, factors within
//! their sums, accounts, units, and how many rows there are.
//!
//! Of the locked book, where it is read, only the region entries and the account's own
//! rows are to stay: its run, its constraints and its contracts may change as well.

use std::collections::BTreeSet;

use crate::book::{Book, Constraint, EnergyRow, UnitRow};
use crate::books::{has_test, Pair};
use crate::requests::accounts::named;
use crate::requests::generate::split;
use crate::requests::random::Random;
use crate::requests::worked::{constraint, contract, energy_row, unit_row};

/// The most constraints, energy rows, unit rows and contracts of a book.
const CONSTRAINTS: usize = 64;
const ENERGY_ROWS: usize = 1_024;
const UNIT_ROWS: usize = 600;
const CONTRACTS: usize = 16;

const MONEY_LIMIT: i64 = 50_000_000_000;

/// A change. Where the book has no rows that it needs, it leaves the book as it is.
#[derive(Clone, Copy)]
pub struct Change {
    pub name: &'static str,
    pub apply: fn(&mut Random, &mut Book, u32),
}

const fn change(name: &'static str, apply: fn(&mut Random, &mut Book, u32)) -> Change {
    Change { name, apply }
}

pub const CHANGES: [Change; 11] = [
    change("a region's energy dealt anew", deal_region_anew),
    change("an energy row split in two", split_energy_row),
    change("two energy rows made one", merge_energy_rows),
    change("energy moved between two rows", move_energy),
    change("an energy row of zeros added", add_empty_energy_row),
    change("an account renamed", rename_account),
    change("a constraint's units dealt anew", deal_units_anew),
    change("a unit handed to another account", hand_unit_over),
    change("a unit renumbered", renumber_unit),
    change("factors moved between two units", move_factors),
    change("a unit without factors added", add_empty_unit),
];

/// Changes of a locked book beyond those.
pub const LOCKED_CHANGES: [Change; 5] = [
    change("an earlier run", |random, locked, _| {
        locked.header.run = random.between(1, i64::from(locked.header.run)) as u16;
    }),
    change("other costs and regions", change_constraints),
    change("a constraint added", add_constraint),
    change("a contingency constraint gone", remove_contingency),
    change("other contracts", replace_contracts),
];

/// Whether the books agree in all that the account's statement may depend on. A locked
/// book that is not read is nothing of that.
pub fn agree_for(account: u32, one: &Pair, other: &Pair) -> bool {
    let locked = match (&one.locked, &other.locked) {
        _ if !has_test(&one.book) => true,
        (Some(one), Some(other)) => agree_in_rows(account, one, other),
        (one, other) => one == other,
    };
    let (one, other) = (&one.book, &other.book);
    locked
        && one.header == other.header
        && one.constraints == other.constraints
        && one.contracts == other.contracts
        && agree_in_rows(account, one, other)
}

/// Whether the region entries are the same, and the account's own rows.
fn agree_in_rows(account: u32, one: &Book, other: &Book) -> bool {
    let units = |book: &Book| -> Vec<UnitRow> {
        let rows = book.units.iter();
        rows.filter(|row| row.account == account).copied().collect()
    };
    let energies = |book: &Book| -> Vec<EnergyRow> {
        let rows = book.energies.iter();
        rows.filter(|row| row.account == account).copied().collect()
    };
    one.regions == other.regions && units(one) == units(other) && energies(one) == energies(other)
}

// Accounts.

/// An account that the book does not have, and not the one asked for: often near
/// that, so that rows come before and after its own.
fn fresh_account(random: &mut Random, book: &Book, account: u32) -> u32 {
    let named = named(book);
    loop {
        let drawn = match random.below(4) {
            0 => account.wrapping_add(random.below(9) as u32),
            1 => account.wrapping_sub(random.below(9) as u32),
            2 => random.between(1, 2_000) as u32,
            _ => random.edged(1, i64::from(u32::MAX)) as u32,
        };
        if drawn != 0 && drawn != account && !named.contains(&drawn) {
            return drawn;
        }
    }
}

/// Some account beside the one asked for, in the book or not.
fn neighbour(random: &mut Random, book: &Book, account: u32) -> u32 {
    let mut others = named(book);
    others.retain(|&other| other != account);
    if others.is_empty() || random.below(3) == 0 {
        return fresh_account(random, book, account);
    }
    *random.pick(&others)
}

fn rename_account(random: &mut Random, book: &mut Book, account: u32) {
    let mut others = named(book);
    others.retain(|&other| other != account);
    if others.is_empty() {
        return;
    }
    let old = *random.pick(&others);
    let new = fresh_account(random, book, account);
    let units = book.units.iter_mut().map(|row| &mut row.account);
    let energies = book.energies.iter_mut().map(|row| &mut row.account);
    for name in units.chain(energies).filter(|name| **name == old) {
        *name = new;
    }
    sort(book);
}

fn sort(book: &mut Book) {
    book.units.sort_by_key(|row| (row.constraint, row.unit));
    book.energies.sort_by_key(|row| (row.account, row.region));
}

// Energy.

/// The sizes of ACE, ASOE, residual ACE and residual ASOE.
type Energies = [i64; 4];

fn energies_of(row: &EnergyRow) -> Energies {
    [row.ace, row.asoe, row.residual_ace, row.residual_asoe].map(|energy| i64::from(energy).abs())
}

fn sum_of(rows: &[EnergyRow]) -> Energies {
    rows.iter().map(energies_of).fold([0; 4], |sum, row| {
        std::array::from_fn(|kind| sum[kind] + row[kind])
    })
}

fn row_of(account: u32, region: u8, energies: Energies) -> EnergyRow {
    let [ace, asoe, residual_ace, residual_asoe] = energies.map(|size| size as i32);
    energy_row(account, region, [-ace, asoe, -residual_ace, residual_asoe])
}

/// Splits energies among rows. The residual may be of ACE or of ASOE, as only
/// their sum has a total; each row has at most as much residual as energy.
fn deal(random: &mut Random, energies: Energies, rows: usize) -> Vec<Energies> {
    let [ace, asoe, residual_ace, residual_asoe] = energies;
    let residual = residual_ace + residual_asoe;
    let residual_ace = random.edged((residual - asoe).max(0), residual.min(ace));
    let residual_asoe = residual - residual_ace;
    let totals = [
        ace - residual_ace,
        asoe - residual_asoe,
        residual_ace,
        residual_asoe,
    ];
    let shares = totals.map(|total| split(random, total, rows));
    (0..rows)
        .map(|row| {
            let [other_ace, other_asoe, ace, asoe] =
                [0, 1, 2, 3].map(|kind: usize| shares[kind][row]);
            [other_ace + ace, other_asoe + asoe, ace, asoe]
        })
        .collect()
}

/// The neighbours' rows of a region, by their index.
fn energy_rows_of(book: &Book, account: u32, region: u8) -> Vec<usize> {
    (0..book.energies.len())
        .filter(|&at| book.energies[at].account != account && book.energies[at].region == region)
        .collect()
}

/// Two of the neighbours' rows of some region.
fn two_energy_rows(random: &mut Random, book: &Book, account: u32) -> Option<[usize; 2]> {
    let region = random.below(5) as u8;
    let mut rows = energy_rows_of(book, account, region);
    random.shuffle(&mut rows);
    rows.first_chunk().copied()
}

/// All neighbours of a region make way for others, fewer or more of them.
fn deal_region_anew(random: &mut Random, book: &mut Book, account: u32) {
    let region = random.below(5) as u8;
    let is_dealt = |row: &EnergyRow| row.account != account && row.region == region;
    let (dealt, kept): (Vec<_>, Vec<_>) = book.energies.iter().partition(|row| is_dealt(row));
    if dealt.is_empty() {
        return;
    }
    let room = ENERGY_ROWS - kept.len();
    let count = random.between(1, room.min(dealt.len() + 3) as i64) as usize;
    let names: BTreeSet<u32> = (0..2 * count)
        .map(|_| neighbour(random, book, account))
        .collect();
    let mut names: Vec<u32> = names.into_iter().collect();
    random.shuffle(&mut names);
    names.truncate(count);
    let shares = deal(random, sum_of(&dealt), names.len());
    let new = names.into_iter().zip(shares);
    let new = new.map(|(name, energies)| row_of(name, region, energies));
    book.energies = kept.into_iter().chain(new).collect();
    sort(book);
}

fn split_energy_row(random: &mut Random, book: &mut Book, account: u32) {
    let region = random.below(5) as u8;
    let rows = energy_rows_of(book, account, region);
    if rows.is_empty() || book.energies.len() == ENERGY_ROWS {
        return;
    }
    let new = fresh_account(random, book, account);
    let row = &mut book.energies[*random.pick(&rows)];
    let shares = deal(random, energies_of(row), 2);
    *row = row_of(row.account, region, shares[0]);
    book.energies.push(row_of(new, region, shares[1]));
    sort(book);
}

fn merge_energy_rows(random: &mut Random, book: &mut Book, account: u32) {
    if let Some([one, other]) = two_energy_rows(random, book, account) {
        let rows = [book.energies[one], book.energies[other]];
        book.energies[one] = row_of(rows[0].account, rows[0].region, sum_of(&rows));
        book.energies.remove(other);
    }
}

fn move_energy(random: &mut Random, book: &mut Book, account: u32) {
    if let Some(pair) = two_energy_rows(random, book, account) {
        let rows = pair.map(|at| book.energies[at]);
        let shares = deal(random, sum_of(&rows), 2);
        for ((at, row), energies) in pair.into_iter().zip(rows).zip(shares) {
            book.energies[at] = row_of(row.account, row.region, energies);
        }
    }
}

fn add_empty_energy_row(random: &mut Random, book: &mut Book, account: u32) {
    if book.energies.len() < ENERGY_ROWS {
        let new = fresh_account(random, book, account);
        let region = random.below(5) as u8;
        book.energies.push(row_of(new, region, [0; 4]));
        sort(book);
    }
}

// Units.

/// Some constraint that may have unit rows.
fn some_regulation(random: &mut Random, book: &Book) -> Option<Constraint> {
    let constraints = book.constraints.iter();
    let regulation: Vec<_> = constraints.filter(|of| of.mode != 0).collect();
    (!regulation.is_empty()).then(|| **random.pick(&regulation))
}

/// The neighbours' unit rows, by their index.
fn unit_rows(book: &Book, account: u32) -> Vec<usize> {
    (0..book.units.len())
        .filter(|&at| book.units[at].account != account)
        .collect()
}

/// A number that no unit of the constraint has, often near one that has.
fn fresh_unit(random: &mut Random, units: &[UnitRow], constraint: u32) -> u32 {
    let rows = units.iter().filter(|row| row.constraint == constraint);
    let taken: Vec<u32> = rows.map(|row| row.unit).collect();
    loop {
        let drawn = match random.below(3) {
            0 if !taken.is_empty() => random.pick(&taken).wrapping_add(random.below(5) as u32),
            1 => random.between(1, 2_000) as u32,
            _ => random.edged(1, i64::from(u32::MAX)) as u32,
        };
        if drawn != 0 && !taken.contains(&drawn) {
            return drawn;
        }
    }
}

/// The neighbours' units of a constraint make way for others, fewer or more.
fn deal_units_anew(random: &mut Random, book: &mut Book, account: u32) {
    let Some(Constraint { id, .. }) = some_regulation(random, book) else {
        return;
    };
    let is_dealt = |row: &UnitRow| row.constraint == id && row.account != account;
    let (dealt, kept): (Vec<_>, Vec<_>) = book.units.iter().partition(|row| is_dealt(row));
    let room = UNIT_ROWS - kept.len();
    let (factors, defaults) = deal_factors(random, &dealt, room);
    let mut units = kept;
    for (cf, dcf) in factors.into_iter().zip(defaults) {
        let unit = fresh_unit(random, &units, id);
        let name = neighbour(random, book, account);
        units.push(unit_row(id, unit, name, cf as i32, -(dcf as i32)));
    }
    book.units = units;
    sort(book);
}

/// CFs and sizes of DCFs for new units, which add up as those dealt do: those
/// above 0, those below 0, and the default ones.
fn deal_factors(random: &mut Random, dealt: &[UnitRow], room: usize) -> (Vec<i64>, Vec<i64>) {
    let total = |of: fn(&UnitRow) -> i32| -> i64 {
        let factors = dealt.iter().map(of);
        factors.map(i64::from).sum()
    };
    let above = total(|row| row.cf.max(0));
    let below = total(|row| -row.cf.min(0));
    let default = total(|row| -row.dcf);
    let [some_above, some_below] = [above, below].map(|sum| usize::from(sum > 0));
    let least = (some_above + some_below).max(usize::from(default > 0));
    let most = room.min(dealt.len() + 3);
    let count = random.between(least as i64, most as i64) as usize;

    let mut share = |some: usize, most: usize| match some {
        0 => 0,
        _ => random.between(1, most as i64) as usize,
    };
    let above_rows = share(some_above, count - some_below);
    let below_rows = share(some_below, count - above_rows);
    let mut factors = split(random, above, above_rows);
    factors.extend(split(random, below, below_rows).iter().map(|size| -size));
    factors.resize(count, 0);
    random.shuffle(&mut factors);
    (factors, split(random, default, count))
}

fn hand_unit_over(random: &mut Random, book: &mut Book, account: u32) {
    let rows = unit_rows(book, account);
    if !rows.is_empty() {
        book.units[*random.pick(&rows)].account = neighbour(random, book, account);
    }
}

fn renumber_unit(random: &mut Random, book: &mut Book, account: u32) {
    let rows = unit_rows(book, account);
    if !rows.is_empty() {
        let at = *random.pick(&rows);
        book.units[at].unit = fresh_unit(random, &book.units, book.units[at].constraint);
        sort(book);
    }
}

/// Two units of a constraint, of which neither pays where the other is paid,
/// share their factors in another way.
fn move_factors(random: &mut Random, book: &mut Book, account: u32) {
    let mut rows = unit_rows(book, account);
    random.shuffle(&mut rows);
    let Some((&one, rest)) = rows.split_first() else {
        return;
    };
    let first = book.units[one];
    let fits =
        |row: &UnitRow| row.constraint == first.constraint && row.cf.signum() == first.cf.signum();
    let Some(&other) = rest.iter().find(|&&at| fits(&book.units[at])) else {
        return;
    };
    let size = |of: fn(&UnitRow) -> i32| {
        let pair = [one, other].map(|at| i64::from(of(&book.units[at])).abs());
        pair[0] + pair[1]
    };
    let factors = split(random, size(|row| row.cf), 2);
    let defaults = split(random, size(|row| row.dcf), 2);
    for (share, at) in [one, other].into_iter().enumerate() {
        book.units[at].cf = first.cf.signum() * factors[share] as i32;
        book.units[at].dcf = -(defaults[share] as i32);
    }
}

fn add_empty_unit(random: &mut Random, book: &mut Book, account: u32) {
    if book.units.len() == UNIT_ROWS {
        return;
    }
    if let Some(Constraint { id, .. }) = some_regulation(random, book) {
        let unit = fresh_unit(random, &book.units, id);
        let name = neighbour(random, book, account);
        book.units.push(unit_row(id, unit, name, 0, 0));
        sort(book);
    }
}

// Constraints and contracts of a locked book, which nothing is shared by. Its unit rows
// stay, so every constraint that may have some does too.

fn change_constraints(random: &mut Random, locked: &mut Book, _: u32) {
    for of in &mut locked.constraints {
        of.cost = random.edged(0, MONEY_LIMIT);
        of.regions = random.between(1, 31) as u8;
    }
}

fn add_constraint(random: &mut Random, locked: &mut Book, _: u32) {
    let id = random.edged(1, i64::from(u32::MAX)) as u32;
    let is_taken = locked.constraints.iter().any(|of| of.id == id);
    if is_taken || locked.constraints.len() == CONSTRAINTS {
        return;
    }
    let default = Constraint {
        drcf: -1_000_000,
        ..constraint(id, 10, 2, 31, MONEY_LIMIT)
    };
    let contingency = constraint(id, 1, 0, random.between(1, 31) as u8, 1);
    locked
        .constraints
        .push(*random.pick(&[default, contingency]));
    locked.constraints.sort_by_key(|of| of.id);
}

fn remove_contingency(_: &mut Random, locked: &mut Book, _: u32) {
    if let Some(at) = locked.constraints.iter().position(|of| of.mode == 0) {
        locked.constraints.remove(at);
    }
}

fn replace_contracts(random: &mut Random, locked: &mut Book, _: u32) {
    let count = random.below(CONTRACTS + 1) as u32;
    let contracts = (1..=count).map(|id| {
        let factors = split(random, 1_000_000, 5);
        let kind = random.between(1, 2) as u8;
        let payment = random.edged(0, MONEY_LIMIT);
        contract(
            id,
            kind,
            payment,
            [0, 1, 2, 3, 4].map(|at: usize| factors[at] as u32),
        )
    });
    locked.contracts = contracts.collect();
}
