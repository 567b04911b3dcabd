//! Sums over a constraint's regions, worked out by hand from the scope document (01): what
//! a line is shared by, what a balance comes to, and which totals are zero. Library and
//! reference both have to give them.
//!
//! What 01 says of them: "The regions of a constraint are one bit each, bit 0 for NSW1."
//! "ASOE for raise, ACE for lower, both summed over the constraint's regions." "TE is
//! |residual ACE| + |residual ASOE| over its rows in the constraint's regions; ATE is the
//! residual totals there." In check 10 the total "over its regions" must not be zero.
//!
//! The energies of the book, in kWh. Each region has a decimal place of its own, so that a
//! sum shows by its digits which regions are in it, and no two masks have the same sum.
//! Of one kind the accounts have another part of the total in each region: what is shared
//! over other regions than the constraint's, is shared otherwise.
//!
//! | | NSW1 | QLD1 | SA1 | TAS1 | VIC1 |
//! |---|---|---|---|---|---|
//! | bit of the mask | 1 | 2 | 4 | 8 | 16 |
//! | ASOE of account 7 | 7 | 70 | 600 | 3,000 | 10,000 |
//! | ASOE of account 9 | 2 | 10 | 300 | 1,000 | 60,000 |
//! | total ASOE | 9 | 80 | 900 | 4,000 | 70,000 |
//! | ACE of account 7 | -1 | -10 | -200 | -2,000 | -50,000 |
//! | ACE of account 9 | -4 | -50 | -600 | -4,000 | -40,000 |
//! | total ACE | -5 | -60 | -800 | -6,000 | -90,000 |
//! | residual of account 7 | 1 + 2 | 10 + 30 | 100 + 300 | 2,000 + 3,000 | 10,000 + 10,000 |
//! | residual of account 9 | 1 + 0 | 20 + 10 | 0 + 100 | 2,000 + 1,000 | 4,000 + 6,000 |
//! | residual total | 4 | 70 | 500 | 8,000 | 30,000 |

use fervolatro_testing::book::{Book, Constraint, EnergyRow, RegionEntry};
use fervolatro_testing::harness::{Answer, Call, Given, Run, Units, LIBRARY};
use fervolatro_testing::requests::worked::{book_of, constraint, energy_row};
use fervolatro_testing::statement::{Line, Statement};
use fervolatro_testing::{Balance, Entry, Refusal};

/// The energy over the regions of a mask, in kWh: the total, and what accounts 7 and 9 have
/// of it.
struct Over {
    regions: u8,
    total: i64,
    own: [i64; 2],
}

const fn over(regions: u8, total: i64, own: [i64; 2]) -> Over {
    Over {
        regions,
        total,
        own,
    }
}

/// ASOE, the total and then account 7's and account 9's.
const BY_ASOE: [Over; 10] = [
    // NSW1.
    over(1, 9, [7, 2]),
    // QLD1.
    over(2, 80, [70, 10]),
    // NSW1, QLD1: 9 + 80; 7 + 70, 2 + 10.
    over(3, 89, [77, 12]),
    // SA1.
    over(4, 900, [600, 300]),
    // TAS1.
    over(8, 4_000, [3_000, 1_000]),
    // VIC1.
    over(16, 70_000, [10_000, 60_000]),
    // NSW1, VIC1: 9 + 70,000; 7 + 10,000, 2 + 60,000.
    over(17, 70_009, [10_007, 60_002]),
    // NSW1, SA1, VIC1: 9 + 900 + 70,000; 7 + 600 + 10,000, 2 + 300 + 60,000.
    over(21, 70_909, [10_607, 60_302]),
    // All but NSW1: 80 + 900 + 4,000 + 70,000; 70 + 600 + 3,000 + 10,000, 10 + 300 + 1,000
    // + 60,000.
    over(30, 74_980, [13_670, 61_310]),
    // All: 9 + 80 + 900 + 4,000 + 70,000; 7 + 70 + 600 + 3,000 + 10,000, 2 + 10 + 300 +
    // 1,000 + 60,000.
    over(31, 74_989, [13_677, 61_312]),
];

/// ACE by its size, likewise.
const BY_ACE: [Over; 10] = [
    over(1, 5, [1, 4]),
    over(2, 60, [10, 50]),
    // NSW1, QLD1: 5 + 60; 1 + 10, 4 + 50.
    over(3, 65, [11, 54]),
    over(4, 800, [200, 600]),
    over(8, 6_000, [2_000, 4_000]),
    over(16, 90_000, [50_000, 40_000]),
    // NSW1, VIC1: 5 + 90,000; 1 + 50,000, 4 + 40,000.
    over(17, 90_005, [50_001, 40_004]),
    // NSW1, SA1, VIC1: 5 + 800 + 90,000; 1 + 200 + 50,000, 4 + 600 + 40,000.
    over(21, 90_805, [50_201, 40_604]),
    // All but NSW1: 60 + 800 + 6,000 + 90,000; 10 + 200 + 2,000 + 50,000, 50 + 600 + 4,000
    // + 40,000.
    over(30, 96_860, [52_210, 44_650]),
    // All: 5 + 60 + 800 + 6,000 + 90,000; 1 + 10 + 200 + 2,000 + 50,000, 4 + 50 + 600 +
    // 4,000 + 40,000.
    over(31, 96_865, [52_211, 44_654]),
];

/// |Residual ACE| + |residual ASOE|, likewise.
const BY_RESIDUAL: [Over; 10] = [
    over(1, 4, [3, 1]),
    over(2, 70, [40, 30]),
    // NSW1, QLD1: 4 + 70; 3 + 40, 1 + 30.
    over(3, 74, [43, 31]),
    over(4, 500, [400, 100]),
    over(8, 8_000, [5_000, 3_000]),
    over(16, 30_000, [20_000, 10_000]),
    // NSW1, VIC1: 4 + 30,000; 3 + 20,000, 1 + 10,000.
    over(17, 30_004, [20_003, 10_001]),
    // NSW1, SA1, VIC1: 4 + 500 + 30,000; 3 + 400 + 20,000, 1 + 100 + 10,000.
    over(21, 30_504, [20_403, 10_101]),
    // All but NSW1: 70 + 500 + 8,000 + 30,000; 40 + 400 + 5,000 + 20,000, 30 + 100 + 3,000
    // + 10,000.
    over(30, 38_570, [25_440, 13_130]),
    // All: 4 + 70 + 500 + 8,000 + 30,000; 3 + 40 + 400 + 5,000 + 20,000, 1 + 30 + 100 +
    // 3,000 + 10,000.
    over(31, 38_574, [25_443, 13_131]),
];

/// A sort of constraint, which is shared by one kind of energy.
struct Sort {
    name: &'static str,
    /// An id is this and the mask.
    id: u32,
    service: u8,
    mode: u8,
    drcf: i32,
    /// Of its line in a statement.
    part: u8,
    over: [Over; 10],
    /// The energies of a row with so many kWh of the kind. Of the others it always has some.
    energies: fn(i32) -> [i32; 4],
    /// Where it stands in a book with one constraint of each sort.
    place: usize,
}

const SORTS: [Sort; 3] = [
    Sort {
        name: "raise by ASOE",
        id: 100,
        service: 7,
        mode: 0,
        drcf: 0,
        part: 2,
        over: BY_ASOE,
        energies: |kwh| [-5, kwh, -5, 0],
        place: 84,
    },
    Sort {
        name: "lower by ACE",
        id: 200,
        service: 2,
        mode: 0,
        drcf: 0,
        part: 1,
        over: BY_ACE,
        energies: |kwh| [-kwh, 5, 0, 5],
        place: 84 + 40,
    },
    // Without unit rows DRCF is the whole, and so the residual pool is the cost.
    Sort {
        name: "regulation by residual",
        id: 300,
        service: 10,
        mode: 2,
        drcf: -1_000_000,
        part: 8,
        over: BY_RESIDUAL,
        energies: |kwh| [-5, 5, -kwh, 0],
        place: 84 + 40 + 40,
    },
];

impl Sort {
    fn constraint(&self, regions: u8, cost: i64) -> Constraint {
        let id = self.id + u32::from(regions);
        Constraint {
            drcf: self.drcf,
            ..constraint(id, self.service, self.mode, regions, cost)
        }
    }
}

/// A constraint, what it costs, and what accounts 7 and 9 pay of that.
struct Paid {
    sort: &'static Sort,
    regions: u8,
    cost: i64,
    paid: [i64; 2],
}

impl Paid {
    fn line(&self, at: usize) -> Entry {
        Entry {
            id: self.sort.id + u32::from(self.regions),
            part: self.sort.part,
            regions: self.regions,
            unit: 0,
            amount: -self.paid[at],
        }
    }

    fn balance(&self) -> Balance {
        let [by_7, by_9] = self.paid;
        Balance {
            amount: self.cost,
            lines: 2,
            sum: -by_7 - by_9,
        }
    }
}

/// A book of these constraints, in this order, and of these energies.
fn book_of_paid(all: &[Paid], energies: &[EnergyRow]) -> Book {
    let constraints = all.iter().map(|of| of.sort.constraint(of.regions, of.cost));
    book_of(&constraints.collect::<Vec<_>>(), &[], energies)
}

/// What library and reference answer, who have to agree.
fn asked(book: &Book, call: Call) -> Given {
    Run::new(LIBRARY, Units::Own).compare(call, &book.encode())
}

fn refused(number: u8, place: usize) -> Given {
    Err(Refusal { number, place })
}

fn lines(book: &Book, account: u32) -> Vec<Entry> {
    match asked(book, Call::WholeStatement { account }) {
        Ok(Answer::Bytes(bytes)) => {
            let lines = Statement::decode(&bytes).lines;
            lines.iter().map(Line::entry).collect()
        }
        other => panic!("account {account} has no statement: {other:?}"),
    }
}

/// Both accounts have these lines, one for each constraint, and no others.
fn assert_lines(book: &Book, all: &[Paid]) {
    for (at, account) in [7, 9].into_iter().enumerate() {
        let expected: Vec<Entry> = all.iter().map(|of| of.line(at)).collect();
        assert_eq!(expected.len(), 30);
        assert_eq!(lines(book, account), expected, "account {account}");
    }
}

/// The book has these pools, one for each constraint, and no others. Each leaves so much
/// over.
fn assert_balances(book: &Book, all: &[Paid], left_over: i64) {
    assert_eq!(all.len(), 30);
    for (pool, of) in (0..).zip(all) {
        let balance = of.balance();
        assert_eq!(balance.amount + balance.sum, left_over, "pool {pool}");
        let given = asked(book, Call::Balance { pool });
        assert_eq!(given, Ok(Answer::Balance(balance)), "pool {pool}");
    }
    let past = asked(book, Call::Balance { pool: 30 });
    assert_eq!(past, refused(15, 0));
}

// Lines and balances in whole dollars.

/// A constraint costs a dollar for each kWh of its total, so that an account pays a dollar
/// for each of its own: cost x own / total is 10,000 x total x own / total, and nothing is
/// rounded. A wrong total does not cancel, and the own sum shows as it is.
fn in_dollars() -> Vec<Paid> {
    const DOLLAR: i64 = 10_000;
    let all = SORTS.iter().flat_map(|sort| {
        sort.over.iter().map(move |over| Paid {
            sort,
            regions: over.regions,
            cost: DOLLAR * over.total,
            paid: over.own.map(|kwh| DOLLAR * kwh),
        })
    });
    all.collect()
}

/// The energies of the table at the top.
fn book_in_dollars() -> Book {
    let energies = [
        energy_row(7, 0, [-1, 7, -1, 2]),
        energy_row(7, 1, [-10, 70, -10, 30]),
        energy_row(7, 2, [-200, 600, -100, 300]),
        energy_row(7, 3, [-2_000, 3_000, -2_000, 3_000]),
        energy_row(7, 4, [-50_000, 10_000, -10_000, 10_000]),
        energy_row(9, 0, [-4, 2, -1, 0]),
        energy_row(9, 1, [-50, 10, -20, 10]),
        energy_row(9, 2, [-600, 300, 0, 100]),
        energy_row(9, 3, [-4_000, 1_000, -2_000, 1_000]),
        energy_row(9, 4, [-40_000, 60_000, -4_000, 6_000]),
    ];
    let mut book = book_of_paid(&in_dollars(), &energies);
    // By hand: were they not what the rows make, the book would be refused.
    book.regions = [
        entry(-5, 9, 4),
        entry(-60, 80, 70),
        entry(-800, 900, 500),
        entry(-6_000, 4_000, 8_000),
        entry(-90_000, 70_000, 30_000),
    ];
    book
}

fn entry(ace: i32, asoe: i32, residual: i32) -> RegionEntry {
    RegionEntry {
        ace,
        asoe,
        residual,
    }
}

#[test]
fn lines_over_each_mask() {
    assert_lines(&book_in_dollars(), &in_dollars());
}

/// What accounts 7 and 9 have is the total, so their two lines are the cost.
#[test]
fn balances_over_each_mask() {
    assert_balances(&book_in_dollars(), &in_dollars(), 0);
}

// Balances that end in a half.

/// Where nothing is rounded, two lines make the cost whichever regions both are summed over:
/// a balance shows these only by what is left over. So here both lines end in a half, and
/// are rounded to one unit more than the cost; summed over other regions than a mask of
/// several has, they do not end so.
///
/// The energies in kWh, of every kind alike:
///
/// | | NSW1 | QLD1 | SA1 | TAS1 | VIC1 |
/// |---|---|---|---|---|---|
/// | account 7 | 1 | 30 | 500 | 1,000 | 10,000 |
/// | account 9 | 5 | 10 | 100 | 7,000 | 30,000 |
/// | total | 6 | 40 | 600 | 8,000 | 40,000 |
///
/// A row is a mask, the cost, and what accounts 7 and 9 pay.
const HALVES: [(u8, i64, [i64; 2]); 10] = [
    // 3 x 1 / 6 = 0.5, 3 x 5 / 6 = 2.5.
    (1, 3, [1, 3]),
    // 2 x 30 / 40 = 1.5, 2 x 10 / 40 = 0.5.
    (2, 2, [2, 1]),
    // 23 is one half for each of 6 + 40 kWh: 15.5 for 1 + 30, 7.5 for 5 + 10.
    (3, 23, [16, 8]),
    // 3 x 500 / 600 = 2.5, 3 x 100 / 600 = 0.5.
    (4, 3, [3, 1]),
    // 4 x 1,000 / 8,000 = 0.5, 4 x 7,000 / 8,000 = 3.5.
    (8, 4, [1, 4]),
    // 2 x 10,000 / 40,000 = 0.5, 2 x 30,000 / 40,000 = 1.5.
    (16, 2, [1, 2]),
    // 20,003 is one half for each of 6 + 40,000 kWh: 5,000.5 for 1 + 10,000, 15,002.5 for
    // 5 + 30,000.
    (17, 20_003, [5_001, 15_003]),
    // 20,303 is one half for each of 6 + 600 + 40,000 kWh: 5,250.5 for 1 + 500 + 10,000,
    // 15,052.5 for 5 + 100 + 30,000.
    (21, 20_303, [5_251, 15_053]),
    // 2,432 is one twentieth for each of 40 + 600 + 8,000 + 40,000 kWh: 576.5 for 30 + 500 +
    // 1,000 + 10,000, 1,855.5 for 10 + 100 + 7,000 + 30,000.
    (30, 2_432, [577, 1_856]),
    // 24,323 is one half for each of 6 + 40 + 600 + 8,000 + 40,000 kWh: 5,765.5 for 1 + 30 +
    // 500 + 1,000 + 10,000, 18,557.5 for 5 + 10 + 100 + 7,000 + 30,000.
    (31, 24_323, [5_766, 18_558]),
];

#[test]
fn halves_over_each_mask() {
    let all = SORTS.iter().flat_map(|sort| {
        HALVES.into_iter().map(move |(regions, cost, paid)| Paid {
            sort,
            regions,
            cost,
            paid,
        })
    });
    let all: Vec<Paid> = all.collect();
    let alike = |account, region, kwh: i32| energy_row(account, region, [-kwh, kwh, -kwh, 0]);
    let energies = [
        alike(7, 0, 1),
        alike(7, 1, 30),
        alike(7, 2, 500),
        alike(7, 3, 1_000),
        alike(7, 4, 10_000),
        alike(9, 0, 5),
        alike(9, 1, 10),
        alike(9, 2, 100),
        alike(9, 3, 7_000),
        alike(9, 4, 30_000),
    ];
    let book = book_of_paid(&all, &energies);
    assert_balances(&book, &all, -1);
    assert_lines(&book, &all);
}

// Check 10.

/// The ten masks, each with its regions.
const MASKS: [(u8, &[usize]); 10] = [
    (1, &[0]),
    (2, &[1]),
    (3, &[0, 1]),
    (4, &[2]),
    (8, &[3]),
    (16, &[4]),
    (17, &[0, 4]),
    (21, &[0, 2, 4]),
    (30, &[1, 2, 3, 4]),
    (31, &[0, 1, 2, 3, 4]),
];

/// Each sort with each mask and its regions.
fn each_mask_of_each_sort() -> impl Iterator<Item = (&'static Sort, u8, &'static [usize])> {
    let masks_of = |sort| {
        MASKS
            .into_iter()
            .map(move |(mask, regions)| (sort, mask, regions))
    };
    SORTS.iter().flat_map(masks_of)
}

/// A book with a constraint of each sort over the mask, at 84, 124 and 164, which cost 1,000
/// each. Of the kind of energy that the one sort is shared by, account 7 has so many kWh in
/// each region; of the others it has some in all of them.
fn book_with(sort: &Sort, mask: u8, kwh: [i32; 5]) -> Book {
    let constraints = SORTS.each_ref().map(|of| of.constraint(mask, 1_000));
    let rows = (0..).zip(kwh);
    let rows = rows.map(|(region, kwh)| energy_row(7, region, (sort.energies)(kwh)));
    book_of(&constraints, &[], &rows.collect::<Vec<_>>())
}

/// None in these regions, and 5 kWh in each of the others.
fn none_in(regions: &[usize]) -> [i32; 5] {
    let mut kwh = [5; 5];
    for &region in regions {
        kwh[region] = 0;
    }
    kwh
}

/// Only the mask's regions have none of the kind: what all the others have does not count.
/// The place is that of the one constraint which is shared by it. "Numbers 1 to 10 come from
/// every call on a book."
#[test]
fn masks_without_energy_are_refused() {
    let calls = [
        Call::Check,
        Call::WholeStatement { account: 7 },
        Call::Balance { pool: 0 },
    ];
    for (sort, mask, regions) in each_mask_of_each_sort() {
        let book = book_with(sort, mask, none_in(regions));
        let refused = refused(10, sort.place);
        for call in calls {
            let given = asked(&book, call);
            assert_eq!(given, refused, "{}, mask {mask}, {call:?}", sort.name);
        }
    }
}

/// One kWh in one region of the mask is enough, be it the lowest, the highest or one
/// between. All energy is account 7's, which so pays each cost of 1,000 alone.
#[test]
fn one_region_with_energy_is_enough() {
    let alone = Balance {
        amount: 1_000,
        lines: 1,
        sum: -1_000,
    };
    for (sort, mask, regions) in each_mask_of_each_sort() {
        for &lone in regions {
            let mut kwh = none_in(regions);
            kwh[lone] = 1;
            let book = book_with(sort, mask, kwh);
            let about = format!("{}, mask {mask}, region {lone}", sort.name);
            assert_eq!(asked(&book, Call::Check), Ok(Answer::Nothing), "{about}");
            let amounts = lines(&book, 7).into_iter().map(|line| line.amount);
            assert!(amounts.eq([-1_000; 3]), "{about}");
            for pool in 0..3 {
                let given = asked(&book, Call::Balance { pool });
                assert_eq!(given, Ok(Answer::Balance(alone)), "{about}, pool {pool}");
            }
        }
    }
}
