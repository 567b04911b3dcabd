//! What roundings cut off, worked out by hand from the request for it (02, Req 06) and the
//! scope document (01): the worked interval, pools of every kind with quotients that end in
//! a half, both signs, a contract over two regions, a locked book, refusals. Library,
//! reference and fast version all have to give them.
//!
//! What is cut off is exact less rounded, in parts of the divisor: 1/2 is rounded to 1, and
//! -1 of 2 is cut off; -1/2 is rounded to -1, and 1 of 2 is cut off.
//!
//! A book that wants no other is lent as its own locked book.

use fervolatro_testing::book::{Book, Constraint};
use fervolatro_testing::books::{Books, Pair};
use fervolatro_testing::harness::{Answer, Call, Given, FAST, LIBRARY, REFERENCE};
use fervolatro_testing::requests::worked::{
    book_of, constraint, contract, empty_book, energy_row, small_halves_book, unit_row, worked_book,
};
use fervolatro_testing::{Cutoff, Refusal};

const WHOLE: u64 = 1_000_000;

const fn stage(stage: u8, divisor: u64, cut: i64) -> Cutoff {
    Cutoff {
        stage,
        region: 0,
        divisor,
        cut,
    }
}

/// The one stage of a contingency constraint.
const fn line(divisor: u64, cut: i64) -> Cutoff {
    stage(1, divisor, cut)
}

/// The stages of a factored constraint's pool: over which divisor the pool is made and what
/// that cuts off; what units and the residual pool cut off; and the residual lines, over
/// the residual total.
const fn factored(
    (divisor, pool): (u64, i64),
    [unit, residual]: [i64; 2],
    (total, share): (u64, i64),
) -> [Cutoff; 4] {
    let [unit, residual, share] = default([unit, residual], (total, share));
    [stage(2, divisor, pool), unit, residual, share]
}

/// Those of a default one, whose pool is the cost itself.
const fn default([unit, residual]: [i64; 2], (total, share): (u64, i64)) -> [Cutoff; 3] {
    [
        stage(3, WHOLE, unit),
        stage(4, WHOLE, residual),
        stage(5, total, share),
    ]
}

/// Those of a contract in a region: what the region's part and its half cut off, and the
/// lines by ACE and by ASOE, over the region's totals.
fn region(
    region: u8,
    [whole, half]: [i64; 2],
    by_ace: (u64, i64),
    by_asoe: (u64, i64),
) -> [Cutoff; 4] {
    let stages = [
        stage(6, WHOLE, whole),
        stage(7, 2, half),
        stage(8, by_ace.0, by_ace.1),
        stage(9, by_asoe.0, by_asoe.1),
    ];
    stages.map(|of| Cutoff { region, ..of })
}

/// Asks all three, who have to agree.
fn asked(books: Books, pool: u64, index: u64) -> Given {
    let call = Call::Cutoff { pool, index };
    let given = (LIBRARY.ask)(call, books, &mut []);
    for other in [REFERENCE, FAST] {
        let theirs = (other.ask)(call, books, &mut []);
        assert_eq!(given, theirs, "{}, pool {pool}, stage {index}", other.name);
    }
    given
}

fn refused(number: u8, place: usize) -> Given {
    Err(Refusal { number, place })
}

/// The book has these pools with these stages, and no others.
fn assert_stages(books: Books, pools: &[&[Cutoff]]) {
    for (pool, stages) in (0..).zip(pools) {
        for (index, &of) in (0..).zip(*stages) {
            let given = asked(books, pool, index);
            assert_eq!(given, Ok(Answer::Cutoff(of)), "pool {pool}, stage {index}");
        }
        let count = stages.len() as u64;
        for index in [count, count + 1, 1 << 32, u64::MAX - 1, u64::MAX] {
            assert_eq!(asked(books, pool, index), refused(15, 0), "pool {pool}");
        }
        for side in [LIBRARY, REFERENCE] {
            let all = (side.ask)(Call::AllCutoffs { pool }, books, &mut []);
            assert_eq!(all, Ok(Answer::Cutoffs(stages.to_vec())), "pool {pool}");
        }
    }
    let count = pools.len() as u64;
    for pool in [count, count + 1, 1 << 32, u64::MAX] {
        for index in [0, 1, u64::MAX] {
            assert_eq!(asked(books, pool, index), refused(15, 0), "pool {pool}");
        }
        let all = (LIBRARY.ask)(Call::AllCutoffs { pool }, books, &mut []);
        assert_eq!(all, refused(15, 0), "pool {pool}");
    }
}

/// The same of a book that is its own locked one.
fn assert_own_stages(book: &Book, pools: &[&[Cutoff]]) {
    let bytes = book.encode();
    assert_stages(Books::of(&bytes, &bytes), pools);
}

/// "Balances 0, 1, 2 give remainders 1, 0, 0." Of a residual energy of 1,600,000 account 7
/// has 20,000, that is 1/80, and account 9 the rest.
#[test]
fn worked_interval() {
    // 9,855 x 90,000 = 886,950,000 is 120 x 7,391,250: nothing is cut off. CFs: 591,300,
    // -147,825 and -5,026,050 are whole; 221,737.5 and 6,578,212.5 are rounded up, and a
    // half is missing of each, -1,000,000 together. That is the remainder of 1. The residual
    // pool, -2,217,375, is whole. Of it 7 has -27,717.1875, so -27,717, and -0.1875 x
    // 1,600,000 = -300,000 is cut off; 9 has -2,189,657.8125, so -2,189,658, and 300,000.
    let fpp = factored((120, 0), [-1_000_000, 0], (1_600_000, 0));
    // 13,961,300 x 0.4 = 5,584,520 is whole. Negative CFs: -111,690.4, so -111,690, and
    // -400,000 is cut off; -3,797,473.6, so -3,797,474, and 400,000. The residual pool,
    // -1,675,356, is whole. -20,941.95, so -20,942, and 80,000; -1,654,414.05, so
    // -1,654,414, and -80,000.
    let used = factored((WHOLE, 0), [0, 0], (1_600_000, 0));
    // Used cut off nothing. DCFs: -335,071.2, so -335,071, and -200,000; -83,767.8, so
    // -83,768, and 200,000; -5,863,746. The residual pool, -2,094,195, is whole.
    // -26,177.4375, so -26,177, and -700,000; -2,068,017.5625, so -2,068,018, and 700,000.
    let unused = factored((WHOLE, 0), [0, 0], (1_600_000, 0));
    assert_own_stages(&worked_book(), &[&fpp, &used, &unused]);
}

/// The worked book with other CFs: unit 2 has -30,000, and RCF is -290,000.
#[test]
fn halves_of_units_and_of_the_residual() {
    let mut book = worked_book();
    book.units[1].cf = -30_000;
    book.constraints[0].rcf = -290_000;
    // FPP 7,391,250: unit 2 has -221,737.5, so -221,738, and a half is left over, which
    // makes up for unit 3's. Unit 4's is still missing: -500,000. The residual pool is
    // -2,143,462.5, so -2,143,463, and 500,000: the balance is nil. Of that pool 7 has
    // -26,793.2875, so -26,793, and -0.2875 x 1,600,000 = -460,000; 9 has -2,116,669.7125,
    // so -2,116,670, and 460,000.
    let fpp = factored((120, 0), [-500_000, 500_000], (1_600_000, 0));
    // Used 5,584,520: -167,535.6, so -167,536, and 400,000; -3,797,473.6, so -3,797,474, and
    // 400,000. The residual pool is -1,619,510.8, so -1,619,511, and 200,000. Of it 7 has
    // -20,243.8875, so -20,244, and 180,000; 9 has -1,599,267.1125, so -1,599,267, and
    // -180,000. One unit of money too much is paid.
    let used = factored((WHOLE, 0), [800_000, 200_000], (1_600_000, 0));
    let unused = factored((WHOLE, 0), [0, 0], (1_600_000, 0));
    assert_own_stages(&book, &[&fpp, &used, &unused]);
}

/// One unit of money more than the worked book's cost: 13,961,301 x 0.4 = 5,584,520.4, so
/// 5,584,520, and 400,000 is cut off. Unused is one more then, 8,376,781, where 8,376,780.6
/// would be its part: minus what used cut off.
#[test]
fn a_cost_that_is_not_divided_evenly() {
    let mut book = worked_book();
    book.constraints[0].cost += 1;
    let fpp = factored((120, 0), [-1_000_000, 0], (1_600_000, 0));
    let used = factored((WHOLE, 400_000), [0, 0], (1_600_000, 0));
    // DCFs: -335,071.24, so -335,071, and -240,000; -83,767.81, so -83,768, and 190,000;
    // -5,863,746.7, so -5,863,747, and 300,000. The residual pool is -2,094,195.25, so
    // -2,094,195, as in the worked book, and -250,000.
    let unused = factored((WHOLE, -400_000), [250_000, -250_000], (1_600_000, 0));
    assert_own_stages(&book, &[&fpp, &used, &unused]);
}

/// The worked book with price x RCR below 120: 59 is rounded to 0, and 59 cut off; 60, a
/// half, to 1, and 61 too. Of a pool of 1 units have 0.08, -0.02, 0.03, 0.89 and -0.68: 0,
/// 0, 0, 1 and -1, of which 80,000, -20,000, 30,000, -110,000 and 320,000 are cut off. The
/// residual pool is -0.3, so 0.
#[test]
fn small_fpp_pools() {
    let nothing = factored((120, 59), [0, 0], (1_600_000, 0));
    let half = factored((120, -60), [300_000, -300_000], (1_600_000, 0));
    let more = factored((120, -59), [300_000, -300_000], (1_600_000, 0));
    let exact = factored((120, 0), [300_000, -300_000], (1_600_000, 0));
    for (price, fpp) in [(59, nothing), (60, half), (61, more), (120, exact)] {
        let mut book = worked_book();
        (book.constraints[0].price, book.constraints[0].rcr) = (price, 1);
        let rest = factored((WHOLE, 0), [0, 0], (1_600_000, 0));
        assert_own_stages(&book, &[&fpp, &rest, &rest]);
    }
}

// Every kind of pool, with quotients that end in a half. Accounts 7 and 9 have half of all
// energy each: 1 of 2 kWh of ACE and of ASOE in NSW1 and in QLD1, and a residual of 2 of 4
// in NSW1.

/// The stages of a pool with nothing in it are there, and cut off nothing.
fn of_nothing(stages: &[Cutoff]) -> Vec<Cutoff> {
    let stages = stages.iter();
    stages.map(|&of| Cutoff { cut: 0, ..of }).collect()
}

fn small_halves() -> Vec<Vec<Cutoff>> {
    vec![
        // Mode 0, cost 1: one half each, so 1, and -1 of 2 each.
        vec![line(2, -2)],
        // Mode 0, cost 3: 1 and a half each, so 2, and -1 of 2 each.
        vec![line(2, -2)],
        // Mode 2, cost 5: the unit has -2.5, so -3, and a half. So has the residual pool. Of
        // its -3 each has -1.5, so -2, and 2 of 4 each.
        default([500_000, 500_000], (4, 4)).to_vec(),
        // FPP, 60 / 120: one half, so 1. Unit 1 has one half of that, so 1, and -500,000;
        // unit 2 has -1. The residual pool is one half, so 1, and each has one half of it,
        // so 1, and -2 of 4.
        factored((120, -60), [-500_000, -500_000], (4, -4)).to_vec(),
        // Used, half of 5: 2.5, so 3. Unit 2 has -3, all else is 0.
        factored((WHOLE, -500_000), [0, 0], (4, 0)).to_vec(),
        // Unused, 2: unit 1 has -1, the residual pool is -1, and each has -0.5 of it, so -1,
        // and 2 of 4.
        factored((WHOLE, 500_000), [0, 0], (4, 4)).to_vec(),
        // Payment 5 in NSW1, consumed half 3, sent-out half 2: each has 1.5 by ACE, so 2, and
        // -1 of 2; by ASOE 1.
        region(0, [0, -1], (2, -2), (2, 0)).to_vec(),
        // Payment 3 in two regions: 1.5 each, so 2, and halves of 1. Of each half each has
        // one half, so 1, and -1 of 2.
        [0, 1]
            .map(|of| region(of, [-500_000, 0], (2, -2), (2, -2)))
            .concat(),
    ]
}

fn slices(pools: &[Vec<Cutoff>]) -> Vec<&[Cutoff]> {
    pools.iter().map(Vec::as_slice).collect()
}

#[test]
fn quotients_that_end_in_a_half() {
    assert_own_stages(&small_halves_book(), &slices(&small_halves()));
}

#[test]
fn pools_of_nothing() {
    let mut book = small_halves_book();
    for constraint in &mut book.constraints {
        (constraint.cost, constraint.price) = (0, 0);
    }
    for contract in &mut book.contracts {
        contract.payment = 0;
    }
    let pools = small_halves();
    let pools: Vec<Vec<Cutoff>> = pools.iter().map(|stages| of_nothing(stages)).collect();
    assert_own_stages(&book, &slices(&pools));
}

/// An account without energy where a pool asks for it has lines of 0, and nothing is cut
/// off of them: one of units alone, one of a row of nothing, one of another region.
#[test]
fn accounts_without_energy() {
    let mut book = small_halves_book();
    book.units[0].account = u32::MAX;
    book.energies.insert(2, energy_row(8, 0, [0; 4]));
    book.energies
        .insert(3, energy_row(8, 2, [-40, 30, -20, 10]));
    book.total_regions();
    assert_own_stages(&book, &slices(&small_halves()));
}

#[test]
fn no_rows_at_all() {
    assert_own_stages(&empty_book(), &[]);
}

// One kind of pool at a time.

/// Three accounts with 7 of 21 kWh of ASOE each, for a raise service. Of a cost of 1 each
/// has a third, so 0, and 7 of 21 is cut off each: all of it together. Of a cost of 5 each
/// has 35 / 21, so 2, and -7.
#[test]
fn contingency_in_thirds() {
    let row = |account| energy_row(account, 4, [0, 7, 0, 0]);
    let costs = [constraint(1, 1, 0, 16, 1), constraint(2, 1, 0, 31, 5)];
    let book = book_of(&costs, &[], &[7, 8, 9].map(row));
    assert_own_stages(&book, &[&[line(21, 21)], &[line(21, -21)]]);
}

/// A lower service by ACE over NSW1 and VIC1, 20 kWh, cost 15: 7 has 2 kWh in two rows,
/// which are rounded as one, 30 / 20, so 2, and -10; 8 has 13, 195 / 20, so 10, and -5; 9 has
/// 5, 75 / 20, so 4, and -5; 6 has none there.
#[test]
fn contingency_over_two_regions() {
    let ace = |account, region, size: i32| energy_row(account, region, [-size, 0, 0, 0]);
    let energies = [
        ace(6, 1, 1_000),
        ace(7, 0, 1),
        ace(7, 4, 1),
        ace(8, 4, 13),
        ace(9, 0, 5),
    ];
    let book = book_of(&[constraint(1, 8, 0, 0b10001, 15)], &[], &energies);
    assert_own_stages(&book, &[&[line(20, -20)]]);
}

/// The highest total there is, 100,000,000 kWh, of which 9 has one. Of a cost of
/// 49,999,999,999 it has 500 less 1 / 100,000,000, so 500, and -1 is cut off; 7 has as much
/// more than 49,999,999,499, and 1. In VIC1 alone 7 and 9 have half of 20,000,000 kWh each:
/// the cost is odd, so a half is rounded up, and -10,000,000 cut off, of each.
#[test]
fn highest_totals() {
    let most = 20_000_000;
    let ace = |account, region, size: i32| energy_row(account, region, [-size, 0, 0, 0]);
    let mut energies: Vec<_> = (0..4).map(|region| ace(7, region, most)).collect();
    energies.extend([ace(7, 4, most - 1), ace(9, 4, 1)]);
    let cost = 49_999_999_999;
    let book = book_of(&[constraint(1, 2, 0, 31, cost)], &[], &energies);
    assert_own_stages(&book, &[&[line(100_000_000, 0)]]);

    let energies = [7, 9].map(|account| ace(account, 4, most / 2));
    let book = book_of(&[constraint(1, 2, 0, 16, cost)], &[], &energies);
    assert_own_stages(&book, &[&[line(20_000_000, -20_000_000)]]);
}

/// Mode 2, cost 7: units of -0.35 and -0.25 have -2.45, so -2, and -450,000; -1.75, so -2,
/// and 250,000. The residual pool, -0.4, is -2.8, so -3, and 200,000. Of six kWh 7 has 1, 8
/// has 2 and 9 has 3: -0.5, so -1, and 3 of 6; -1; -1.5, so -2, and 3 of 6.
#[test]
fn default_factors() {
    let regulated = Constraint {
        drcf: -400_000,
        ..constraint(9, 10, 2, 1, 7)
    };
    let units = [
        unit_row(9, 1, 7, 0, -350_000),
        unit_row(9, 2, 8, 0, -250_000),
    ];
    let energies = [
        energy_row(7, 0, [-1, 0, -1, 0]),
        energy_row(8, 0, [-1, 1, -1, 1]),
        energy_row(9, 0, [-9, 9, 0, 3]),
    ];
    let book = book_of(&[regulated], &units, &energies);
    assert_own_stages(&book, &[&default([-200_000, 200_000], (6, 6))]);
}

/// NSW1: 7, 8 and 9 have 1 of 3 kWh of ACE each, 7 and 9 have 1 of 2 of ASOE. TAS1: 7 has 1
/// of 4 kWh of ACE and 1 of 3 of ASOE, 9 the rest.
fn contract_over_two_regions(payment: i64) -> Book {
    let energies = [
        energy_row(7, 0, [-1, 1, 0, 0]),
        energy_row(7, 3, [-1, 1, 0, 0]),
        energy_row(8, 0, [-1, 0, 0, 0]),
        energy_row(9, 0, [-1, 1, 0, 0]),
        energy_row(9, 3, [-3, 2, 0, 0]),
    ];
    let mut book = book_of(&[], &[], &energies);
    book.contracts = vec![contract(1, 2, payment, [300_000, 0, 0, 700_000, 0])];
    book
}

/// 300.3, so 300, and 700.7, so 701, which is odd: its consumed half is 351, and its
/// sent-out half 350. TAS1: 87.75, so 88, and -1 of 4; 263.25, so 263, and 1; 116 and 2/3,
/// so 117, and -1 of 3; 233 and 1/3, so 233, and 1.
#[test]
fn an_odd_part_of_a_contract() {
    let stages = [
        region(0, [300_000, 0], (3, 0), (2, 0)),
        region(3, [-300_000, -1], (4, 0), (3, 0)),
    ];
    assert_own_stages(&contract_over_two_regions(1_001), &[stages.as_flattened()]);
}

/// 1.5, so 2, and 3.5, so 4: half a unit of money is missing of each. Halves of 1 and of 2.
/// NSW1: by ACE each has a third, so 0, and 1 of 3; by ASOE 7 and 9 have one half, so 1, and
/// -1 of 2. TAS1: by ACE 0.5, so 1, and -2 of 4; 1.5, so 2, and -2 of 4; by ASOE 2/3, so 1,
/// and -1 of 3; 4/3, so 1, and 1 of 3.
#[test]
fn a_small_contract() {
    let stages = [
        region(0, [-500_000, 0], (3, 3), (2, -2)),
        region(3, [-500_000, 0], (4, -4), (3, 0)),
    ];
    assert_own_stages(&contract_over_two_regions(5), &[stages.as_flattened()]);
}

// The locked book.

/// Constraint 5, lower, cost 1,000; constraint 6, default, 500, all residual; contract 1 of
/// kind 1, and contract 2 of kind 2, both all NSW1's. There, in the current book, 7 and 9
/// have ACE -30 and -70, ASOE 10 and 40, a residual of 40 and 110; in the locked one 7 and 8
/// have ACE -60 and -20, ASOE 5 and 15.
fn locked_pair() -> Pair {
    let rest = Constraint {
        drcf: -1_000_000,
        ..constraint(6, 9, 2, 1, 500)
    };
    let energies = [
        energy_row(7, 0, [-30, 10, -30, 10]),
        energy_row(9, 0, [-70, 40, -70, 40]),
    ];
    let mut book = book_of(&[constraint(5, 2, 0, 1, 1_000), rest], &[], &energies);
    let all = [1_000_000, 0, 0, 0, 0];
    book.contracts = vec![contract(1, 1, 1_001, all), contract(2, 2, 2_003, all)];
    let energies = [
        energy_row(7, 0, [-60, 5, 0, 0]),
        energy_row(8, 0, [-20, 15, 0, 0]),
    ];
    Pair::of(book, book_of(&[], &[], &energies))
}

/// Constraint 5: 300 and 700 are whole. Constraint 6: -133 and 1/3, so -133, and -50 of 150;
/// -366 and 2/3, so -367, and 50. Contract 1, halves 501 and 500: 150.3, so 150, and 30 of
/// 100; 350.7, so 351, and -30; 100 and 400. Contract 2, by the locked book, halves 1,002
/// and 1,001: 751.5, so 752, and -40 of 80; 250.5, so 251, and -40; 250.25, so 250, and 5 of
/// 20; 750.75, so 751, and -5.
#[test]
fn energies_of_the_locked_book() {
    let pair = locked_pair().encode();
    let stages: [&[Cutoff]; 4] = [
        &[line(100, 0)],
        &default([0, 0], (150, 0)),
        &region(0, [0, -1], (100, 0), (50, 0)),
        &region(0, [0, -1], (80, -80), (20, 0)),
    ];
    assert_stages(Books::from(&pair), &stages);
}

/// The current book as its own locked one. Contract 2 by ACE: 1,002 x 0.3 = 300.6, so 301,
/// and -40 of 100; 701.4, so 701, and 40. By ASOE: 200.2, so 200, and 10 of 50; 800.8, so
/// 801, and -10.
#[test]
fn the_same_bytes_twice() {
    let stages: [&[Cutoff]; 4] = [
        &[line(100, 0)],
        &default([0, 0], (150, 0)),
        &region(0, [0, -1], (100, 0), (50, 0)),
        &region(0, [0, -1], (100, 0), (50, 0)),
    ];
    assert_own_stages(&locked_pair().book, &stages);
}

/// Without a contract of kind 2 the locked book is not read, whatever it is.
#[test]
fn a_locked_book_that_is_not_read() {
    let mut book = locked_pair().book;
    book.contracts.truncate(1);
    let bytes = book.encode();
    let stages: [&[Cutoff]; 3] = [
        &[line(100, 0)],
        &default([0, 0], (150, 0)),
        &region(0, [0, -1], (100, 0), (50, 0)),
    ];
    for locked in [&[][..], b"no book", &locked_pair().encode().locked] {
        assert_stages(Books::of(&bytes, locked), &stages);
    }
}

// Refusals.

/// Every number is refused so, that of a stage and those past the end.
fn assert_refused(books: Books, number: u8, place: usize) {
    for pool in [0, 2, 3, 99, u64::MAX] {
        for index in [0, 3, 4, u64::MAX] {
            assert_eq!(asked(books, pool, index), refused(number, place));
        }
        let all = (LIBRARY.ask)(Call::AllCutoffs { pool }, books, &mut []);
        assert_eq!(all, refused(number, place));
    }
}

/// 1 to 10 are looked for before 15: usage 1,000,001 is refused 5 at 84, and so on.
#[test]
fn refused_books() {
    let refusals: [(u8, usize, fn(&mut Book)); 6] = [
        (2, 0, |book| book.header.mark = *b"RCS"),
        (3, 0, |book| book.header.interval = 289),
        (5, 84, |book| book.constraints[0].usage = 1_000_001),
        (8, 84, |book| book.constraints[0].rcf = -299_999),
        (9, 24, |book| book.regions[0].residual = 1_599_999),
        // NSW1 has all energy.
        (10, 84, |book| book.constraints[0].regions = 2),
    ];
    for (number, place, change) in refusals {
        let mut book = worked_book();
        change(&mut book);
        assert_refused(Books::from(&book.encode()), number, place);
    }
    let bytes = worked_book().encode();
    assert_refused(Books::from(&bytes[..83]), 1, 0);
    assert_refused(Books::from(&bytes[..271]), 4, 0);
}

/// The first contract of kind 2 stands behind two constraints, two energy rows and a
/// contract: 84 + 80 + 48 + 36 = 248.
#[test]
fn refused_locked_books() {
    let pair = locked_pair().encode();
    assert_refused(Books::from(&pair.book), 17, 248);
    assert_refused(Books::of(&pair.book, &pair.locked[1..]), 18, 248);
    let mut later = locked_pair();
    later.book.header.run = 2;
    let locked = later.locked.as_mut().expect("there is one");
    locked.header.run = 3;
    assert_refused(Books::from(&later.encode()), 18, 248);
}
