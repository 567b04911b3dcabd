//! Balances worked out by hand from the scope document (01): its worked interval,
//! pools of every kind with amounts that end in a half, and who counts as an account.
//! Library and reference both have to give them.
//!
//! A pool closes: in size, amount plus sum has at most as many halves as the pool
//! has lines, and as many more as its kind allows. That number stands with each
//! pool here.
//!
//! Each book is lent as its own locked book; `locked_cases.rs` has balances over two.

use fervolatro_testing::book::Book;
use fervolatro_testing::requests::worked::{
    book_of, constraint, contract, empty_book, energy_row, small_halves_book, unit_row, worked_book,
};
use fervolatro_testing::{library, reference, Balance, Books, Refusal};

/// What a pool has to answer, and how many halves it may leave over beyond one per
/// line.
#[derive(Clone, Copy)]
struct Expected {
    amount: i64,
    lines: u64,
    sum: i64,
    more_halves: u64,
}

const fn contingency(amount: i64, lines: u64, sum: i64) -> Expected {
    contract_over(0, amount, lines, sum)
}

/// A pool of a constraint of mode 1 or 2.
const fn regulation(amount: i64, lines: u64, sum: i64) -> Expected {
    contract_over(1, amount, lines, sum)
}

/// A pool of a contract that benefits so many regions.
const fn contract_over(regions: u64, amount: i64, lines: u64, sum: i64) -> Expected {
    Expected {
        amount,
        lines,
        sum,
        more_halves: regions,
    }
}

/// Asks both, which have to agree.
fn balance(book: &Book, pool: u64) -> Result<Balance, Refusal> {
    let bytes = book.encode();
    let books = Books::of(&bytes, &bytes);
    let library = library::balance(books, pool);
    assert_eq!(library, reference::balance(books, pool), "pool {pool}");
    library
}

/// The book has these pools, each of which closes, and no others.
fn assert_pools(book: &Book, pools: &[Expected]) {
    for (number, expected) in (0..).zip(pools) {
        let &Expected {
            amount, lines, sum, ..
        } = expected;
        let expected_balance = Balance { amount, lines, sum };
        assert_eq!(balance(book, number), Ok(expected_balance), "pool {number}");
        let halves = 2 * (amount + sum).unsigned_abs();
        assert!(halves <= lines + expected.more_halves, "pool {number}");
    }
    let past_the_end = Err(Refusal {
        number: 15,
        place: 0,
    });
    let count = pools.len() as u64;
    for number in [count, count + 1, 1 << 32, u64::MAX] {
        assert_eq!(balance(book, number), past_the_end, "pool {number}");
    }
}

/// "Balances 0, 1, 2 give remainders 1, 0, 0." Five units, and the residual lines of
/// accounts 7 and 9, which have 1/80 and 79/80 of the residual energy.
#[test]
fn worked_interval() {
    let pools = [
        // FPP 7,391,250. CFs: 591,300 - 147,825 + 221,737.5 + 6,578,212.5 - 5,026,050,
        // both halves rounded up: 2,217,376. Residual pool -2,217,375: -27,717.2 and
        // -2,189,657.8 round to the whole of it.
        regulation(0, 7, 1),
        // Negative CFs: -111,690.4 and -3,797,473.6 round to -111,690 and -3,797,474,
        // together -3,909,164. Residual pool -1,675,356: -20,941.95 and -1,654,414.05
        // round to the whole of it.
        regulation(5_584_520, 7, -5_584_520),
        // DCFs: -335,071.2 - 83,767.8 - 5,863,746 round to -335,071, -83,768 and
        // -5,863,746, together -6,282,585. Residual pool -2,094,195: -26,177.4 and
        // -2,068,017.6 round to the whole of it.
        regulation(8_376_780, 7, -8_376_780),
    ];
    assert_pools(&worked_book(), &pools);
}

/// Account 9's units are account 8's here, which has no energy: it has its two unit
/// lines in each pool, and a residual line of 0.
#[test]
fn units_alone() {
    let mut book = worked_book();
    book.units[3].account = 8;
    book.units[4].account = 8;
    let pools = [
        regulation(0, 8, 1),
        regulation(5_584_520, 8, -5_584_520),
        regulation(8_376_780, 8, -8_376_780),
    ];
    assert_pools(&book, &pools);
}

/// No pool can stand in a book without rows: its total to divide by would be 0.
#[test]
fn no_rows_at_all() {
    assert_pools(&empty_book(), &[]);
}

/// Rows without a constraint or a contract are no pool.
#[test]
fn rows_without_pools() {
    let book = book_of(&[], &[], &[energy_row(7, 0, [-1, 1, -1, 1])]);
    assert_pools(&book, &[]);
}

/// 1 to 10 are looked for before 15. Usage 1,000,001 is refused 5 at 84.
#[test]
fn refused_book() {
    let mut book = worked_book();
    book.constraints[0].usage = 1_000_001;
    let refused = Err(Refusal {
        number: 5,
        place: 84,
    });
    for pool in [0, 2, 3, u64::MAX] {
        assert_eq!(balance(&book, pool), refused, "pool {pool}");
    }
}

// Every kind of pool, with amounts that end in a half. Accounts 7 and 9 have half of
// all energy each. Constraint 1 and contract 1 have the same id, so have constraint 2
// and contract 2.

const SMALL_HALVES: [Expected; 8] = [
    // Mode 0, cost 1: one half each, so 1 each. As much as may be left over.
    contingency(1, 2, -2),
    // Mode 0, cost 3: 1 and a half each, so 2 each. Again as much as may be.
    contingency(3, 2, -4),
    // Mode 2, cost 5: the unit pays 2 and a half, so 3. The residual pool is -3 as
    // well, and half of it -1 and a half, so -2 each. Left over is -2, as much as
    // three lines and one rounded pool may.
    regulation(5, 3, -7),
    // Mode 1. FPP pool 1: unit 1 has one half, so 1, unit 2 has -1. The residual pool
    // is one half, so 1, and half of it each, so 1 each.
    regulation(0, 4, 2),
    // Used, 3: unit 1 and the residual have no negative factor, unit 2 has it all.
    regulation(3, 4, -3),
    // Unused, 2: unit 1 has -1, unit 2 none. The residual pool is -1, and half of it
    // each, so -1 each.
    regulation(2, 4, -3),
    // Payment 5 in NSW1: consumed half 3, sent-out half 2. Half of them each: 1 and a
    // half, so 2, and 1.
    contract_over(1, 5, 4, -6),
    // Payment 3, half in each of two regions: 1 and a half, so 2, and both halves 1.
    // Half of them each, so 1, in eight lines. Left over is -5, as much as eight lines
    // and two rounded regions may.
    contract_over(2, 3, 8, -8),
];

#[test]
fn small_halves() {
    assert_pools(&small_halves_book(), &SMALL_HALVES);
}

/// The same pools with one account more, whose lines are all 0: one residual or
/// contingency line in each pool, two lines per region of a contract.
fn small_halves_with_lines_of_zero() -> [Expected; 8] {
    let more = [1, 1, 1, 1, 1, 1, 2, 4];
    std::array::from_fn(|pool| Expected {
        lines: SMALL_HALVES[pool].lines + more[pool],
        ..SMALL_HALVES[pool]
    })
}

/// The unit of constraint 3 is another account's, which has nothing else: that line
/// moves, and 8 has lines of 0 besides.
#[test]
fn units_alone_in_every_kind_of_pool() {
    let mut book = small_halves_book();
    book.units[0].account = 8;
    assert_pools(&book, &small_halves_with_lines_of_zero());
}

/// Accounts are those of the whole book: 8 has energy in SA1 alone, where no pool
/// asks for it.
#[test]
fn energy_in_another_region() {
    let mut book = small_halves_book();
    book.energies
        .insert(2, energy_row(8, 2, [-40, 30, -20, 10]));
    book.total_regions();
    assert_pools(&book, &small_halves_with_lines_of_zero());
}

/// An energy row of nothing names its account as any other does.
#[test]
fn energy_of_zero() {
    let mut book = small_halves_book();
    book.energies.insert(2, energy_row(8, 0, [0; 4]));
    assert_pools(&book, &small_halves_with_lines_of_zero());
}

/// The highest account is counted as any other.
#[test]
fn highest_account() {
    let mut book = small_halves_book();
    book.units[0].account = u32::MAX;
    assert_pools(&book, &small_halves_with_lines_of_zero());
}

/// Three units of account 8, in two constraints, and rows of 7 in both regions: each
/// account is counted once, and a pool has the unit lines of its own constraint. What
/// 8's new unit has for a factor is nothing, so it adds a line of 0 to the three pools
/// of constraint 4.
#[test]
fn accounts_with_several_rows() {
    let mut book = small_halves_book();
    book.units[0].account = 8;
    book.units[1].account = 8;
    book.units.push(unit_row(4, 3, 8, 0, 0));
    let mut pools = small_halves_with_lines_of_zero();
    for pool in &mut pools[3..6] {
        pool.lines += 1;
    }
    assert_pools(&book, &pools);
}

// One kind of pool at a time.

/// Three accounts with a third each of ASOE, for a raise service: a cost of 1 is 1/3
/// each, so 0, and stays whole; of a cost of 5 each pays 1 and 2/3, so 2.
#[test]
fn contingency_in_thirds() {
    let row = |account| energy_row(account, 4, [0, 7, 0, 0]);
    let costs = [constraint(1, 1, 0, 16, 1), constraint(2, 1, 0, 31, 5)];
    let book = book_of(&costs, &[], &[7, 8, 9].map(row));
    assert_pools(&book, &[contingency(1, 3, 0), contingency(5, 3, -6)]);
}

/// A lower service by ACE over NSW1 and VIC1, 20 kWh: 7 has 1 in each, 2 together, 8
/// has 13 in VIC1, 9 has 5 in NSW1. Cost 15: 1 and a half, 9.75, 3.75 round to 2, 10
/// and 4. Summed over the regions first: 7's two kWh alone would be 0.75 each, 1 and
/// 1. QLD1 is not asked, but 6, whose only row is there, has a line.
#[test]
fn contingency_over_two_regions() {
    let ace = |account, region, size: i32| energy_row(account, region, [-size, 0, 0, 0]);
    let energies = [
        ace(6, 1, 1_000),
        ace(7, 0, 1),
        ace(7, 4, 1),
        ace(8, 4, 13),
        ace(9, 0, 5),
    ];
    let book = book_of(&[constraint(1, 8, 0, 0b10001, 15)], &[], &energies);
    assert_pools(&book, &[contingency(15, 4, -16)]);
}

/// The highest cost, all of one account.
#[test]
fn highest_cost() {
    let most = 50_000_000_000;
    let energies = [energy_row(7, 3, [-20_000_000, 0, 0, 0])];
    let book = book_of(&[constraint(1, 2, 0, 8, most)], &[], &energies);
    assert_pools(&book, &[contingency(most, 1, -most)]);
}

/// A cost of nothing has its lines all the same.
#[test]
fn pools_of_nothing() {
    let mut book = small_halves_book();
    for constraint in &mut book.constraints {
        (constraint.cost, constraint.price) = (0, 0);
    }
    for contract in &mut book.contracts {
        contract.payment = 0;
    }
    let nothing = SMALL_HALVES.map(|pool| Expected {
        amount: 0,
        sum: 0,
        ..pool
    });
    assert_pools(&book, &nothing);
}

/// Mode 2, cost 7, DRCF -0.4; units of 7 and 8 with -0.35 and -0.25: 2.45 and 1.75
/// round to 2 and 2. The residual pool is -2.8, so -3; of six kWh 7 has 1, 8 has 2
/// and 9 has 3: one half, 1, and 1 and a half, so -1, -1 and -2.
#[test]
fn default_factors() {
    let mut regulated = constraint(9, 10, 2, 1, 7);
    regulated.drcf = -400_000;
    let units = [
        unit_row(9, 1, 7, 0, -350_000),
        unit_row(9, 2, 8, 0, -250_000),
    ];
    let energies = [
        energy_row(7, 0, [-1, 0, -1, 0]),
        energy_row(8, 0, [-1, 1, -1, 1]),
        energy_row(9, 0, [-9, 9, 0, 3]),
    ];
    let book = book_of(&[regulated], &units, &energies);
    assert_pools(&book, &[regulation(7, 5, -8)]);
}

/// Payment 1,001, of which NSW1 has 30% of the benefit, 300.3, so 300, and QLD1 70%,
/// 700.7, so 701. Halves: 150 and 150; 351 and 350. Three accounts, four lines each.
#[test]
fn contract_over_two_regions() {
    let energies = [
        energy_row(7, 0, [-1, 1, 0, 0]),
        energy_row(7, 1, [-1, 1, 0, 0]),
        energy_row(8, 0, [-1, 0, 0, 0]),
        energy_row(9, 0, [-1, 1, 0, 0]),
        energy_row(9, 1, [-3, 2, 0, 0]),
    ];
    let mut book = book_of(&[], &[], &energies);
    book.contracts = vec![contract(1, 2, 1_001, [300_000, 700_000, 0, 0, 0])];
    // NSW1: a third of 150 each by ACE, 50; by ASOE 75 for 7 and for 9, 0 for 8. QLD1:
    // by ACE 7 has a quarter, 87.75, so 88, and 9 the rest, 263.25, so 263; by ASOE 7
    // has a third, 116.7, so 117, and 9 the rest, 233.3, so 233.
    assert_pools(&book, &[contract_over(2, 1_001, 12, -1_001)]);

    // 30% and 70% of 5 are 1 and a half, so 2, and 3 and a half, so 4, one more than
    // there is. Halves: 1 and 1; 2 and 2. NSW1: by ACE 1/3 each, so 0; by ASOE one
    // half, so 1, for 7 and 9. QLD1: by ACE one half, so 1, and 1 and a half, so 2; by
    // ASOE 2/3, so 1, and 1 and 1/3, so 1.
    book.contracts[0].payment = 5;
    assert_pools(&book, &[contract_over(2, 5, 12, -7)]);
}
