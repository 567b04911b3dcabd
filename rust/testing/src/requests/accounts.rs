//! The accounts of a book: which there are, what each has, and books in which
//! they have more.

use crate::book::{Book, EnergyRow};
use crate::books::Pair;
use crate::requests::random::Random;

const ENERGY_LIMIT: i32 = 20_000_000;

/// What a book has of an account.
#[derive(Clone, Copy, Debug, PartialEq, Eq, PartialOrd, Ord)]
pub enum Holding {
    Nothing,
    UnitsOnly,
    EnergyOnly,
    UnitsAndEnergy,
    EveryRegion,
}

impl Holding {
    pub const ALL: [Holding; 5] = [
        Holding::Nothing,
        Holding::UnitsOnly,
        Holding::EnergyOnly,
        Holding::UnitsAndEnergy,
        Holding::EveryRegion,
    ];

    pub fn of(book: &Book, account: u32) -> Self {
        let rows = book.energies.iter();
        let regions = rows.filter(|row| row.account == account).count();
        let units = book.units.iter().any(|row| row.account == account);
        match (units, regions) {
            (_, 5) => Holding::EveryRegion,
            (true, 0) => Holding::UnitsOnly,
            (true, _) => Holding::UnitsAndEnergy,
            (false, 0) => Holding::Nothing,
            (false, _) => Holding::EnergyOnly,
        }
    }
}

/// The accounts of a book, rising, each once.
pub fn named(book: &Book) -> Vec<u32> {
    named_in([book])
}

/// The accounts of both books, where the locked one is read.
pub fn named_by(pair: &Pair) -> Vec<u32> {
    named_in(pair.read())
}

fn named_in<'b>(books: impl IntoIterator<Item = &'b Book>) -> Vec<u32> {
    let mut accounts = Vec::new();
    for book in books {
        accounts.extend(book.units.iter().map(|row| row.account));
        accounts.extend(book.energies.iter().map(|row| row.account));
    }
    accounts.sort_unstable();
    accounts.dedup();
    accounts
}

/// An account that is there if there are any, at times one beside it or 0.
pub fn some_account(random: &mut Random, pair: &Pair) -> u32 {
    let named = named_by(pair);
    if named.is_empty() {
        return random.edged(0, i64::from(u32::MAX)) as u32;
    }
    let account = *random.pick(&named);
    match random.below(24) {
        0 => 0,
        1 => account.wrapping_add(1),
        2 => account.wrapping_sub(1),
        _ => account,
    }
}

/// Hands the unit rows to a few accounts, some with energy and some without, so
/// that an account has several rows, side by side and apart.
pub fn share_units(random: &mut Random, book: &mut Book) {
    let with_energy: Vec<u32> = book.energies.iter().map(|row| row.account).collect();
    let few: Vec<u32> = (0..1 + random.below(4))
        .map(|_| match with_energy.len() {
            0 => random.edged(1, i64::from(u32::MAX)) as u32,
            _ if random.below(3) == 0 => random.edged(1, i64::from(u32::MAX)) as u32,
            _ => *random.pick(&with_energy),
        })
        .collect();
    for row in &mut book.units {
        row.account = *random.pick(&few);
    }
}

/// Gives an account energy in every region, as far as the region's entry has
/// room for it. The book stays accepted if its rows stay few enough.
pub fn spread(random: &mut Random, book: &mut Book, account: u32) {
    for region in 0..5_u8 {
        let is_there = |row: &EnergyRow| row.account == account && row.region == region;
        if book.energies.iter().any(is_there) {
            continue;
        }
        let entry = book.regions[usize::from(region)];
        let mut up_to = |most: i32| random.edged(0, i64::from(most)) as i32;
        let ace = up_to(ENERGY_LIMIT + entry.ace);
        let asoe = up_to(ENERGY_LIMIT - entry.asoe);
        let room = ENERGY_LIMIT - entry.residual;
        let residual_ace = up_to(ace.min(room));
        book.energies.push(EnergyRow {
            account,
            region,
            ace: -ace,
            asoe,
            residual_ace: -residual_ace,
            residual_asoe: up_to(asoe.min(room - residual_ace)),
            ..EnergyRow::default()
        });
    }
    book.energies.sort_by_key(|row| (row.account, row.region));
    book.total_regions();
}
