//! Books in which many quotients are a whole number and exactly one half, where
//! the ways to round part.
//!
//! Factors, usage and benefits are eighths of one whole, an account's energies
//! eighths of a region's, price times RCR a multiple of 60.

use crate::book::{Book, Constraint, Contract, EnergyRow};
use crate::requests::generate::{balanced, split};
use crate::requests::random::Random;
use crate::requests::worked::{empty_book, energy_row, unit_row};

const EIGHTHS: i64 = 8;
const EIGHTH: i64 = 1_000_000 / EIGHTHS;

/// The two accounts of such a book.
pub const ACCOUNTS: [u32; 2] = [7, 9];

/// An accepted book with both accounts in every region, regulation and
/// contingency, and contracts.
pub fn book_of_halves(random: &mut Random) -> Book {
    let mut book = empty_book();
    book.energies = energies(random);
    book.total_regions();
    for id in 1..=4 {
        let mut constraint = constraint(random, id);
        if constraint.mode != 0 {
            add_units(random, &mut book, &mut constraint);
        }
        book.constraints.push(constraint);
    }
    book.contracts = (1..=2).map(|id| contract(random, id)).collect();
    book
}

/// Both accounts have some eighths of each kind of energy in each region; only
/// together they have all eight.
fn energies(random: &mut Random) -> Vec<EnergyRow> {
    let mut rows = Vec::new();
    for region in 0..5 {
        let eighth = random.edged(1, 1_000_000) as i32;
        let first = [0; 4].map(|_: i32| random.between(1, EIGHTHS - 1) as i32);
        for (account, parts) in [
            (ACCOUNTS[0], first),
            (ACCOUNTS[1], first.map(|part| EIGHTHS as i32 - part)),
        ] {
            let [ace, asoe, residual_ace, residual_asoe] = parts;
            let energies = [
                -ace * eighth,
                asoe * eighth,
                -residual_ace.min(ace) * eighth,
                residual_asoe.min(asoe) * eighth,
            ];
            rows.push(energy_row(account, region, energies));
        }
    }
    rows.sort_by_key(|row| (row.account, row.region));
    rows
}

/// Money of a few units, or of nearly the most that is allowed.
fn money(random: &mut Random) -> i64 {
    match random.below(4) {
        0 => 50_000_000_000 - random.between(0, 100),
        _ => random.between(0, 100),
    }
}

/// A constraint without its factors, in any regions: all have energy.
fn constraint(random: &mut Random, id: u32) -> Constraint {
    let service = random.between(1, 12).min(10) as u8;
    let mut constraint = Constraint {
        id,
        service,
        regions: random.between(1, 31) as u8,
        cost: money(random),
        ..Constraint::default()
    };
    if service >= 9 {
        constraint.mode = random.between(1, 2) as u8;
    }
    if constraint.mode == 1 {
        constraint.price = 60 * random.between(0, 50) as u32;
        constraint.rcr = random.between(0, 50) as u32;
        constraint.usage = (EIGHTH * random.between(0, EIGHTHS)) as u32;
    }
    constraint
}

fn add_units(random: &mut Random, book: &mut Book, constraint: &mut Constraint) {
    const UNITS: u32 = 4;
    let mut factors = match constraint.mode {
        1 => balanced(random, EIGHTHS, UNITS as usize + 1),
        _ => vec![0; UNITS as usize + 1],
    };
    let mut defaults = split(random, EIGHTHS, UNITS as usize + 1);
    let in_millionths = |eighths: i64| (eighths * EIGHTH) as i32;
    constraint.rcf = in_millionths(factors.pop().unwrap_or(0));
    constraint.drcf = -in_millionths(defaults.pop().unwrap_or(0));
    for (unit, (cf, default)) in (1..=UNITS).zip(factors.into_iter().zip(defaults)) {
        let account = *random.pick(&ACCOUNTS);
        let (cf, dcf) = (in_millionths(cf), -in_millionths(default));
        book.units
            .push(unit_row(constraint.id, unit, account, cf, dcf));
    }
}

fn contract(random: &mut Random, id: u32) -> Contract {
    let mut factors = [0; 5];
    for (factor, eighths) in factors.iter_mut().zip(split(random, EIGHTHS, 5)) {
        *factor = (eighths * EIGHTH) as u32;
    }
    Contract {
        id,
        kind: random.between(1, 2) as u8,
        payment: money(random),
        factors,
        ..Contract::default()
    }
}
