//! Random dispatch rows that are good, and the ways in which they become bad by a single
//! cause.

use crate::dispatch::Row;
use crate::requests::random::Random;

const PRICE_LIMIT: i64 = 2_500_000;
const ENABLEMENT_LIMIT: i64 = 1_000_000;
const SUM_LIMIT: i64 = 50_000_000_000;

/// A price and an enablement.
type Pair = (u32, u32);

/// So many good rows: those of payments, mostly, then those of constraints, each of one
/// service or of several, in one region or in several.
pub fn good_rows(random: &mut Random, count: usize) -> Vec<Row> {
    // So far apart at most that there are ids for every row.
    let step = (i64::from(u32::MAX) - 1_000) / count.max(1) as i64;
    let mut id = match random.below(3) {
        0 => random.edged(1, 1_000) as u32,
        _ => 0,
    };
    let mut rows = Vec::new();
    while rows.len() < count {
        rows.extend(rows_of_id(random, id));
        id += random.edged(1, step) as u32;
    }
    rows.truncate(count);
    if random.below(4) == 0 {
        raise_last_id(&mut rows);
    }
    rows
}

/// Gives the rows of the last id the highest there is.
fn raise_last_id(rows: &mut [Row]) {
    let last = rows.last().map(|row| row.id);
    let of_last = rows.iter_mut().filter(|row| Some(row.id) == last);
    of_last.for_each(|row| row.id = u32::MAX);
}

fn rows_of_id(random: &mut Random, id: u32) -> Vec<Row> {
    let mask = match random.below(4) {
        0 => 1 << random.below(10),
        _ => random.between(1, (1 << 10) - 1),
    };
    let services = (1..=10).filter(|service| mask >> (service - 1) & 1 == 1);
    services
        .flat_map(|service| rows_of_service(random, id, service))
        .collect()
}

fn rows_of_service(random: &mut Random, id: u32, service: u8) -> Vec<Row> {
    let mask = random.between(1, 31);
    let regions: Vec<u8> = (0..5).filter(|region| mask >> region & 1 == 1).collect();
    let pairs = pairs(random, regions.len());
    let rows = regions.into_iter().zip(pairs);
    rows.map(|(region, pair)| Row::of(id, service, region, pair))
        .collect()
}

/// So many pairs, whose amounts are within the limit together.
fn pairs(random: &mut Random, count: usize) -> Vec<Pair> {
    let mut pairs = match random.below(4) {
        0 => pairs_at_limit(random, count),
        1 => pairs_within(random, count, half_pair),
        _ => pairs_within(random, count, any_pair),
    };
    random.shuffle(&mut pairs);
    pairs
}

/// Pairs that are drawn one by one, each within the room that those before it leave.
fn pairs_within(
    random: &mut Random,
    count: usize,
    draw: fn(&mut Random, i64) -> Pair,
) -> Vec<Pair> {
    let mut room = SUM_LIMIT;
    let mut pairs = Vec::with_capacity(count);
    for _ in 0..count {
        let pair = draw(random, room);
        room -= amount(pair);
        pairs.push(pair);
    }
    pairs
}

fn amount((price, enablement): Pair) -> i64 {
    (i64::from(price) * i64::from(enablement) + 6) / 12
}

/// Any pair of at most this amount. Whichever number is drawn first has its whole range.
fn any_pair(random: &mut Random, room: i64) -> Pair {
    // Up to 5 more than 12 times the amount are rounded down to it.
    let product = (12 * room + 5).min(12 * SUM_LIMIT);
    if random.coin() {
        let price = random.edged(0, PRICE_LIMIT);
        let most = ENABLEMENT_LIMIT.min(product / price.max(1));
        (price as u32, random.edged(0, most) as u32)
    } else {
        let enablement = random.edged(0, ENABLEMENT_LIMIT);
        let most = PRICE_LIMIT.min(product / enablement.max(1));
        (random.edged(0, most) as u32, enablement as u32)
    }
}

/// A pair whose amount ends in a half before it is rounded: six times an odd number, and
/// an odd number. Any pair, where there is no room for one.
fn half_pair(random: &mut Random, room: i64) -> Pair {
    let price = 12 * random.edged(0, (PRICE_LIMIT - 6) / 12) + 6;
    let most = ENABLEMENT_LIMIT.min((12 * room - 6) / price);
    if most < 1 {
        return any_pair(random, room);
    }
    let enablement = (random.edged(1, most) - 1) | 1;
    (price as u32, enablement as u32)
}

/// Pairs whose amounts make just the limit.
fn pairs_at_limit(random: &mut Random, count: usize) -> Vec<Pair> {
    let Some(free) = count.checked_sub(2) else {
        let alone = [(2_500_000, 240_000), (600_000, 1_000_000), JUST_A_HALF];
        return vec![*random.pick(&alone)];
    };
    let mut pairs = pairs_within(random, free, any_pair);
    let room = SUM_LIMIT - pairs.iter().copied().map(amount).sum::<i64>();
    let large = large_pair(random, room);
    pairs.push(large);
    pairs.push(closing_pair(random, room - amount(large)));
    pairs
}

/// 599,999,999,994 / 12 is 49,999,999,999 and a half, which is rounded to the limit.
const JUST_A_HALF: Pair = (1_169_046, 513_239);

/// A pair that leaves less than 208,334 of the room.
fn large_pair(random: &mut Random, room: i64) -> Pair {
    let lowest = (12 * room + ENABLEMENT_LIMIT - 1) / ENABLEMENT_LIMIT;
    let price = random.edged(lowest.max(1), PRICE_LIMIT);
    (price as u32, (12 * room / price) as u32)
}

/// A pair that comes to just this, which is less than 208,334: with a price up to 11 the
/// product is at most 5 off, and rounded to it.
fn closing_pair(random: &mut Random, room: i64) -> Pair {
    let price = random.between(3, 11);
    (price as u32, ((12 * room + price / 2) / price) as u32)
}

/// A change of one cause that makes rows bad.
pub struct Fault {
    pub name: &'static str,
    /// Changes the row of this number, or all rows of its id and service, and gives the
    /// number of the row that is then refused. None where the rows have no place for the
    /// fault: they are left as they are.
    pub apply: fn(&mut Vec<Row>, usize) -> Option<usize>,
}

const fn fault(name: &'static str, apply: fn(&mut Vec<Row>, usize) -> Option<usize>) -> Fault {
    Fault { name, apply }
}

/// Every fault of this file.
pub fn all_faults() -> impl Iterator<Item = &'static Fault> {
    [RANGES, PRODUCTS, ORDER, SUMS].into_iter().flatten()
}

/// A price or an enablement that is too high makes a product of 0 here.
const RANGES: &[Fault] = &[
    fault("service 0", |rows, at| {
        change(rows, at, |row| row.service = 0)
    }),
    fault("service 11", |rows, at| {
        change(rows, at, |row| row.service = 11)
    }),
    fault("service 255", |rows, at| {
        change(rows, at, |row| row.service = 255)
    }),
    fault("region 5", |rows, at| {
        change(rows, at, |row| row.region = 5)
    }),
    fault("region 255", |rows, at| {
        change(rows, at, |row| row.region = 255)
    }),
    fault("reserved 1", |rows, at| {
        change(rows, at, |row| row.reserved = 1)
    }),
    fault("reserved 256", |rows, at| {
        change(rows, at, |row| row.reserved = 256)
    }),
    fault("price one too high", |rows, at| {
        set_pair(rows, at, (2_500_001, 0))
    }),
    fault("price of all bits", |rows, at| {
        set_pair(rows, at, (u32::MAX, 0))
    }),
    fault("enablement one too high", |rows, at| {
        set_pair(rows, at, (0, 1_000_001))
    }),
    fault("enablement of all bits", |rows, at| {
        set_pair(rows, at, (0, u32::MAX))
    }),
];

/// 600,000,000,004, which is rounded to the limit: only its product is too large. Those
/// between them have no factors in range.
const LEAST_PAST_THE_LIMIT: Pair = (957_347, 626_732);

const PRODUCTS: &[Fault] = &[
    fault(
        "highest price, enablement one past the product",
        |rows, at| set_pair(rows, at, (2_500_000, 240_001)),
    ),
    fault(
        "highest enablement, price one past the product",
        |rows, at| set_pair(rows, at, (600_001, 1_000_000)),
    ),
    fault("least product past its limit", |rows, at| {
        set_pair(rows, at, LEAST_PAST_THE_LIMIT)
    }),
    fault("product that 32 bits would cut to 0", |rows, at| {
        set_pair(rows, at, (1 << 21, 1 << 19))
    }),
    fault("highest price and enablement", |rows, at| {
        set_pair(rows, at, (2_500_000, 1_000_000))
    }),
];

/// A row is not above its forerunner, by one of its three numbers or by none.
const ORDER: &[Fault] = &[
    fault("same row twice", |rows, at| {
        after(rows, at, |before| Some(*before))
    }),
    fault("same id, service and region", |rows, at| {
        after(rows, at, |before| {
            Some(Row::of(before.id, before.service, before.region, (0, 0)))
        })
    }),
    fault("lower id, highest service and region", |rows, at| {
        after(rows, at, |before| {
            let id = before.id.checked_sub(1)?;
            Some(Row::of(id, 10, 4, (0, 0)))
        })
    }),
    fault("same id, lower service, highest region", |rows, at| {
        after(rows, at, |before| {
            (before.service > 1).then(|| Row::of(before.id, before.service - 1, 4, (0, 0)))
        })
    }),
    fault("same id and service, lower region", |rows, at| {
        after(rows, at, |before| {
            let region = before.region.checked_sub(1)?;
            Some(Row::of(before.id, before.service, region, (0, 0)))
        })
    }),
    fault("row before its forerunner", |rows, at| {
        let before = at.checked_sub(1).filter(|_| at < rows.len())?;
        rows.swap(before, at);
        Some(at)
    }),
];

/// The sum of an id and a service passes the limit, by the row that is told.
const SUMS: &[Fault] = &[
    fault("one past the limit by the second row", |rows, at| {
        let pairs = [(2_500_000, 240_000), (1, 6)];
        Some(set_service(rows, at, &pairs)? + 1)
    }),
    fault("one past the limit by the third row of four", |rows, at| {
        let pairs = [(2_500_000, 120_000), (600_000, 500_000), (6, 1), (0, 0)];
        Some(set_service(rows, at, &pairs)? + 2)
    }),
    fault("one past the limit by the fifth row", |rows, at| {
        let quarter = (2_500_000, 60_000);
        let pairs = [quarter, quarter, quarter, quarter, (3, 2)];
        Some(set_service(rows, at, &pairs)? + 4)
    }),
    fault("twice the limit", |rows, at| {
        Some(set_service(rows, at, &[(600_000, 1_000_000); 2])? + 1)
    }),
];

fn change(rows: &mut [Row], at: usize, how: impl FnOnce(&mut Row)) -> Option<usize> {
    how(rows.get_mut(at)?);
    Some(at)
}

fn set_pair(rows: &mut [Row], at: usize, pair: Pair) -> Option<usize> {
    change(rows, at, |row| (row.price, row.enablement) = pair)
}

/// Puts another row in the place of one, made from its forerunner.
fn after(rows: &mut [Row], at: usize, make: impl FnOnce(&Row) -> Option<Row>) -> Option<usize> {
    let made = make(rows.get(at.checked_sub(1)?)?)?;
    *rows.get_mut(at)? = made;
    Some(at)
}

/// Puts rows with these pairs, in regions from 0 on, in the place of all that have the
/// row's id and service. Gives the number of the first.
fn set_service(rows: &mut Vec<Row>, at: usize, pairs: &[Pair]) -> Option<usize> {
    let Row { id, service, .. } = *rows.get(at)?;
    let is_of_service = |row: &Row| row.id == id && row.service == service;
    let start = rows.iter().position(is_of_service)?;
    let others = rows[start..].iter().position(|row| !is_of_service(row));
    let end = others.map_or(rows.len(), |count| start + count);
    let made = (0..).zip(pairs);
    let made = made.map(|(region, &pair)| Row::of(id, service, region, pair));
    rows.splice(start..end, made);
    Some(start)
}

/// So many rows whose fields are drawn one by one, from little more than their ranges:
/// some are good. Half of the time they stand in their order.
pub fn any_rows(random: &mut Random, count: usize) -> Vec<Row> {
    let mut rows: Vec<Row> = (0..count).map(|_| any_row(random)).collect();
    if random.coin() {
        rows.sort_by_key(|row| (row.id, row.service, row.region));
    }
    rows
}

fn any_row(random: &mut Random) -> Row {
    let pair = match random.below(10) {
        0 => (
            random.edged(0, PRICE_LIMIT + 1) as u32,
            random.edged(0, ENABLEMENT_LIMIT + 1) as u32,
        ),
        _ => any_pair(random, SUM_LIMIT),
    };
    Row {
        reserved: random.below(40).saturating_sub(38) as u16,
        ..Row::of(
            random.below(3) as u32,
            random.edged(0, 11) as u8,
            random.between(0, 9).min(5) as u8,
            pair,
        )
    }
}
