//! Random books that are accepted, of every size up to the largest legal one. Those that
//! have a contract of kind 2 are so with a locked book beside them (see `locked`).
//!
//! Most rules are kept by drawing each field from its range. The sums take more:
//! energies are split from totals that fit a region entry, factors from a whole.
//! One region, the anchor, has energy of every kind whenever something divides
//! by it.

use crate::book::{Book, Constraint, Contract, EnergyRow, Header, RegionEntry, UnitRow};
use crate::requests::random::Random;
use crate::requests::worked::energy_row;

const ENERGY_LIMIT: i64 = 20_000_000;
const MONEY_LIMIT: i64 = 50_000_000_000;
const WHOLE: i64 = 1_000_000;

/// How many records of each kind a book has.
#[derive(Clone, Copy, Debug, PartialEq, Eq)]
pub struct Sizes {
    pub constraints: usize,
    pub units: usize,
    pub energies: usize,
    pub contracts: usize,
}

impl Sizes {
    /// The most that is legal: a book of 39,796 bytes.
    pub const LARGEST: Sizes = Sizes {
        constraints: 64,
        units: 600,
        energies: 1_024,
        contracts: 16,
    };

    /// A book in which a region has several rows, and a constraint several units.
    pub const MEDIUM: Sizes = Sizes {
        constraints: 4,
        units: 16,
        energies: 30,
        contracts: 2,
    };

    /// A book of a few hundred bytes.
    pub const SMALL: Sizes = Sizes {
        constraints: 4,
        units: 7,
        energies: 7,
        contracts: 3,
    };

    /// Sizes up to `most`, such that an accepted book has them: unit rows name a
    /// constraint, and constraints and contracts divide by some energy.
    pub fn draw(random: &mut Random, most: Sizes) -> Self {
        let mut count = |most: usize| random.edged(0, most as i64) as usize;
        let constraints = count(most.constraints);
        let contracts = count(most.contracts);
        let units = count(most.units);
        let energies = count(most.energies);
        Sizes {
            constraints,
            units: if constraints == 0 { 0 } else { units },
            energies: energies.max(usize::from(constraints + contracts > 0)),
            contracts,
        }
    }
}

/// A random book that is accepted, of sizes that [`Sizes::draw`] might give.
pub fn accepted_book(random: &mut Random, sizes: Sizes) -> Book {
    let divides = sizes.constraints + sizes.contracts > 0;
    let mut book = Book {
        header: header(random),
        energies: energy_rows(random, sizes.energies, divides),
        ..Book::default()
    };
    book.total_regions();
    let anchor = book.energies.first().map_or(0, |row| row.region);
    let modes = modes(random, sizes);
    let shares = unit_shares(random, &modes, sizes.units);
    let ids = rising(random, sizes.constraints, 3);
    for ((id, mode), share) in ids.into_iter().zip(modes).zip(shares) {
        let mut constraint = constraint(random, id, mode);
        constraint.regions = regions(random, &constraint, &book.regions, anchor);
        book.units.extend(unit_rows(random, &mut constraint, share));
        book.constraints.push(constraint);
    }
    let ids = rising(random, sizes.contracts, 3);
    book.contracts = ids
        .into_iter()
        .map(|id| contract(random, id, &book.regions, anchor))
        .collect();
    book
}

/// A book that is accepted by itself, with the longest statement there is, of 51,672
/// bytes, and the account that gets it: all constraints are factored, all units the
/// account's, and all contracts benefit every region and are of kind 1.
pub fn book_of_longest_statement(random: &mut Random) -> (Book, u32) {
    let Sizes {
        constraints,
        units,
        contracts,
        ..
    } = Sizes::LARGEST;
    let mut book = Book {
        header: header(random),
        ..Book::default()
    };
    let places = [(7, 0), (7, 1), (7, 2), (7, 3), (7, 4), (9, 0), (9, 4)];
    book.energies.extend(places.map(|(account, region)| {
        let [ace, asoe] = [0; 2].map(|_: i64| random.between(1, ENERGY_LIMIT / 4) as i32);
        energy_row(account, region, [-ace, asoe, -ace, asoe])
    }));
    book.total_regions();
    let modes = vec![1; constraints];
    let shares = unit_shares(random, &modes, units);
    for (id, share) in (1..).zip(shares) {
        let mut constraint = constraint(random, id, 1);
        constraint.regions = random.between(1, 31) as u8;
        book.units.extend(unit_rows(random, &mut constraint, share));
        book.constraints.push(constraint);
    }
    book.units.iter_mut().for_each(|row| row.account = 7);
    for id in (1..).take(contracts) {
        let mut contract = contract(random, id, &book.regions, 0);
        contract.kind = 1;
        contract.factors = [1, 199_999, 200_000, 250_000, 350_000];
        book.contracts.push(contract);
    }
    (book, 7)
}

/// Energy rows at these places, account and region, with energy of every kind: up to 205
/// in a region stay within 20,000,000 kWh of residual.
pub fn energies_at(
    random: &mut Random,
    places: impl IntoIterator<Item = (u32, u8)>,
) -> Vec<EnergyRow> {
    let rows = places.into_iter().map(|(account, region)| {
        let [ace, asoe] = [0; 2].map(|_: i64| random.between(1, 48_000) as i32);
        energy_row(account, region, [-ace, asoe, -ace, asoe])
    });
    rows.collect()
}

/// Sets costs, payments, prices, responses and usage to the ends of their ranges.
pub fn set_amounts_to_ends(random: &mut Random, book: &mut Book) {
    const MONEY: [i64; 5] = [0, 1, 25_000_000_001, 49_999_999_999, MONEY_LIMIT];
    const PRICED: [(u32, u32); 4] = [
        (2_500_000, 2_400_000),
        (600_000, 10_000_000),
        (1, 60),
        (1, 59),
    ];
    for constraint in &mut book.constraints {
        constraint.cost = *random.pick(&MONEY);
        if constraint.mode == 1 {
            (constraint.price, constraint.rcr) = *random.pick(&PRICED);
            constraint.usage = *random.pick(&[0, 1, 500_000, 999_999, 1_000_000]);
        }
    }
    for contract in &mut book.contracts {
        contract.payment = *random.pick(&MONEY);
    }
}

/// Every month has 28 days; the other dates have tests of their own.
pub(super) fn header(random: &mut Random) -> Header {
    let year = random.edged(2025, 2099);
    let month = random.edged(1, 12);
    let day = random.edged(1, 28);
    Header {
        mark: *b"RCB",
        version: 1,
        interval: random.edged(1, 288) as u16,
        date: (year * 10_000 + month * 100 + day) as u32,
        run: random.edged(1, 99) as u16,
        ..Header::default()
    }
}

/// Strictly rising numbers from 1 up, with steps up to `widest`; moved up as a
/// whole, at times so far that the last is the largest there is.
fn rising(random: &mut Random, count: usize, widest: i64) -> Vec<u32> {
    let mut last = 0;
    let mut ids: Vec<u32> = Vec::with_capacity(count);
    for _ in 0..count {
        last += random.between(1, widest) as u32;
        ids.push(last);
    }
    let lift = lift(random, last);
    ids.iter_mut().for_each(|id| *id += lift);
    ids
}

/// By how much numbers up to `last` may all be raised.
fn lift(random: &mut Random, last: u32) -> u32 {
    let most = u32::MAX - last;
    match random.below(4) {
        0 => most,
        1 => random.between(0, i64::from(most)) as u32,
        _ => 0,
    }
}

/// Splits a total into so many parts, none of them negative.
pub(super) fn split(random: &mut Random, total: i64, parts: usize) -> Vec<i64> {
    let mut left = total;
    let mut shares = Vec::with_capacity(parts);
    for still in (1..=parts as i64).rev() {
        let share = match still {
            1 => left,
            _ => random.edged(0, (2 * left / still).min(left)),
        };
        left -= share;
        shares.push(share);
    }
    random.shuffle(&mut shares);
    shares
}

/// Energy rows in strictly rising order of account and region. If something
/// divides by energy, the first row's region has some of each kind.
fn energy_rows(random: &mut Random, count: usize, divides: bool) -> Vec<EnergyRow> {
    let mut rows: Vec<EnergyRow> = Vec::with_capacity(count);
    let mut place = 4;
    for _ in 0..count {
        // Accounts and regions counted through: five places to an account.
        place += random.between(1, 7) as u32;
        rows.push(EnergyRow {
            account: place / 5,
            region: (place % 5) as u8,
            ..EnergyRow::default()
        });
    }
    let lift = lift(random, place / 5);
    rows.iter_mut().for_each(|row| row.account += lift);
    let anchor = rows.first().filter(|_| divides);
    let anchors = anchor.map_or(0, |row| 1 << row.region);
    give_energy(random, &mut rows, anchors);
    rows
}

/// Gives the rows energies whose totals fit the region entries. The regions of the mask
/// have some of each kind, if they have a row.
pub fn give_energy(random: &mut Random, rows: &mut [EnergyRow], anchors: u8) {
    for region in 0..5 {
        let own = rows.iter_mut().filter(|row| row.region == region);
        share_energy(random, own.collect(), anchors >> region & 1 == 1);
    }
}

/// Gives a region's rows energies whose totals fit its entry. The anchor's first
/// row gets one kWh of each kind beyond its share, so no total there is zero.
fn share_energy(random: &mut Random, mut rows: Vec<&mut EnergyRow>, is_anchor: bool) {
    let beyond = i32::from(is_anchor);
    let limit = ENERGY_LIMIT - i64::from(beyond);
    let [ace_total, asoe_total, mut residual] = [0; 3].map(|_: i64| random.edged(0, limit));
    let ace_shares = split(random, ace_total, rows.len());
    let asoe_shares = split(random, asoe_total, rows.len());
    for (row, (ace, asoe)) in rows.iter_mut().zip(ace_shares.into_iter().zip(asoe_shares)) {
        let mut residual_of = |own: i64| {
            let part = random.edged(0, own.min(residual));
            residual -= part;
            part as i32
        };
        row.residual_ace = -residual_of(ace);
        row.residual_asoe = residual_of(asoe);
        row.ace = -(ace as i32);
        row.asoe = asoe as i32;
    }
    if let Some(first) = rows.first_mut() {
        first.ace -= beyond;
        first.asoe += beyond;
        first.residual_asoe += beyond;
    }
}

/// A mode for each constraint. A factored one has a unit row at least, and unit
/// rows have a constraint to name.
fn modes(random: &mut Random, sizes: Sizes) -> Vec<u8> {
    let mut rows_left = sizes.units;
    let mut modes: Vec<u8> = (0..sizes.constraints)
        .map(|_| match random.below(3) {
            1 if rows_left > 0 => {
                rows_left -= 1;
                1
            }
            0 => 0,
            _ => 2,
        })
        .collect();
    if sizes.units > 0 && modes.iter().all(|&mode| mode == 0) {
        let named = random.below(modes.len());
        modes[named] = 1;
    }
    modes
}

/// How many unit rows each constraint gets.
fn unit_shares(random: &mut Random, modes: &[u8], units: usize) -> Vec<usize> {
    let mut shares: Vec<usize> = modes.iter().map(|&mode| usize::from(mode == 1)).collect();
    let named: Vec<usize> = (0..modes.len()).filter(|&at| modes[at] != 0).collect();
    let given: usize = shares.iter().sum();
    for _ in given..units {
        shares[*random.pick(&named)] += 1;
    }
    shares
}

/// A constraint without its regions and factors.
fn constraint(random: &mut Random, id: u32, mode: u8) -> Constraint {
    let services = if mode == 0 { 1..=8 } else { 9..=10 };
    let mut constraint = Constraint {
        id,
        service: random.between(*services.start(), *services.end()) as u8,
        mode,
        cost: random.edged(0, MONEY_LIMIT),
        ..Constraint::default()
    };
    if mode == 1 {
        let price = random.edged(0, 2_500_000);
        // Price times RCR is at most 6,000,000,000,000.
        let most = (6_000_000_000_000 / price.max(1)).min(10_000_000);
        constraint.price = price as u32;
        constraint.rcr = random.edged(0, most) as u32;
        constraint.usage = random.edged(0, WHOLE) as u32;
    }
    constraint
}

/// A mask of regions, with the anchor if the others have nothing to divide by.
fn regions(
    random: &mut Random,
    constraint: &Constraint,
    entries: &[RegionEntry; 5],
    anchor: u8,
) -> u8 {
    let mask = random.between(1, 31) as u8;
    let divisor = |entry: &RegionEntry| match constraint.service {
        9 | 10 => entry.residual,
        service if service % 2 == 1 => entry.asoe,
        _ => entry.ace,
    };
    let mut chosen = (0..5).filter(|region| mask & (1 << region) != 0);
    if chosen.any(|region| divisor(&entries[region]) != 0) {
        mask
    } else {
        mask | 1 << anchor
    }
}

/// The unit rows of a constraint, and its RCF and DRCF, with right factor sums.
fn unit_rows(random: &mut Random, constraint: &mut Constraint, count: usize) -> Vec<UnitRow> {
    if constraint.mode == 0 {
        return Vec::new();
    }
    let mut factors = match constraint.mode {
        1 => balanced(random, WHOLE, count + 1),
        _ => vec![0; count + 1],
    };
    let mut defaults = split(random, WHOLE, count + 1);
    constraint.rcf = factors.pop().unwrap_or(0) as i32;
    constraint.drcf = -(defaults.pop().unwrap_or(0) as i32);
    let units = rising(random, count, 4);
    let rows = units.into_iter().zip(factors.into_iter().zip(defaults));
    rows.map(|(unit, (cf, default))| UnitRow {
        constraint: constraint.id,
        unit,
        account: random.edged(1, i64::from(u32::MAX)) as u32,
        cf: cf as i32,
        dcf: -(default as i32),
    })
    .collect()
}

/// Two or more factors that add to 0, the negative ones to minus one whole.
pub(super) fn balanced(random: &mut Random, whole: i64, count: usize) -> Vec<i64> {
    let negative = 1 + random.below(count - 1);
    let mut factors = split(random, whole, negative);
    factors.iter_mut().for_each(|factor| *factor = -*factor);
    factors.extend(split(random, whole, count - negative));
    random.shuffle(&mut factors);
    factors
}

/// A contract that benefits regions with both ACE and ASOE.
fn contract(random: &mut Random, id: u32, entries: &[RegionEntry; 5], anchor: u8) -> Contract {
    let anchor = usize::from(anchor);
    let benefiting: Vec<usize> = (0..5)
        .filter(|&region| entries[region].ace != 0 && entries[region].asoe != 0)
        .filter(|&region| region == anchor || random.coin())
        .collect();
    let mut factors = [0; 5];
    let shares = split(random, WHOLE, benefiting.len());
    for (region, share) in benefiting.into_iter().zip(shares) {
        factors[region] = share as u32;
    }
    Contract {
        id,
        kind: random.between(1, 2) as u8,
        payment: random.edged(0, MONEY_LIMIT),
        factors,
        ..Contract::default()
    }
}
