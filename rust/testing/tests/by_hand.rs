//! A book and its amounts worked on paper, from `docs/BOOK.md` alone.
//!
//! No code of this package packs this book: its bytes stand in `books/by_hand.txt`, one
//! field a line, and every expected number has its sum beside it. So it shows that the
//! page is enough to make a book and to know its statements, its balances and what their
//! roundings cut off beforehand.
//!
//! Its contract is a test payment and wants a locked book: it is lent as its own, so that
//! the payment is shared by the energies that stand there.
//!
//! The pools of constraint 1,003, which many of the sums start from:
//!
//! - FPP: price 1,139 x rcr 2,765,308 = 3,149,685,812; / 120 = 26,247,381 and 92 over,
//!   more than half of 120: 26,247,382.
//! - used: cost 23,456,789 x 0.3725 = 8,737,653.9025: 8,737,654.
//! - unused: 23,456,789 - 8,737,654 = 14,719,135.
//! - residual FPP: 26,247,382 x -0.210987 = -5,537,856.386034: -5,537,856.
//! - residual used: 8,737,654 x -0.210987 = -1,843,531.404498: -1,843,531.
//! - residual unused: 14,719,135 x -0.458766 = -6,752,638.68741: -6,752,639.
//!
//! Its ATE: SA1 34,443 + VIC1 14,533 = 48,976, half of it 24,488. TE: account 12 has
//! 1,250 + 5,100 = 6,350 (its row in QLD1 is outside the mask), account 305 27,183 +
//! 910 = 28,093, account 70,001 14,500 + 33 = 14,533.
//!
//! Contract 77: QLD1 5,000,003 x 0.355 = 1,775,001.065, r = 1,775,001, odd: consumed
//! half 887,501, sent-out half 887,500. SA1 5,000,003 x 0.645 = 3,225,001.935, r =
//! 3,225,002: both halves 1,612,501.

use std::fs;

use fervolatro::{
    Balance, Cutoff, Heading, Line, Mode, Part, PoolKind, Reason, Refusal, Region, Regions,
    Service, Source, Stage, Statement,
};
use fervolatro_testing::in_repository;

/// A line as the listing has it: id, part, regions, unit, amount.
type Listed = (u32, u8, u8, u32, i64);

/// The lines of account 12, which has two units and energy in two regions.
const WITH_UNITS: [Listed; 14] = [
    // Own ACE 31,400 + 8,250 = 39,650 of 36,477 + 35,433 = 71,910, both / 10:
    // 6,000,000,013 x 3,965 = 23,790,000,051,545; / 7,191 = 3,308,302,051 and 2,804
    // over, less than 3,595.5.
    (41, 1, 6, 0, -3_308_302_051),
    // 26,247,382 x -0.25 = -6,561,845.5: a half, away from zero.
    (1003, 3, 20, 801, -6_561_846),
    // 8,737,654 x -0.25 = -2,184,413.5: likewise.
    (1003, 4, 20, 801, -2_184_414),
    // 14,719,135 x -0.150001 = -2,207,870.25 - 14.719135 = -2,207,884.969135.
    (1003, 5, 20, 801, -2_207_885),
    // 26,247,382 x 0.366667 = 26,247,382 - 16,623,333.184206 (x 0.633333) =
    // 9,624,048.815794.
    (1003, 3, 20, 65_540, 9_624_049),
    // Its factor is above 0.
    (1003, 4, 20, 65_540, 0),
    // 14,719,135 x -0.076543 = -1,126,646.750305.
    (1003, 5, 20, 65_540, -1_126_647),
    // 5,537,856 x 6,350 = 35,165,385,600; / 48,976 = 718,012 and 29,888 over: up.
    (1003, 6, 20, 0, -718_013),
    // 1,843,531 x 6,350 = 11,706,421,850; / 48,976 = 239,023 and 31,402 over: up.
    (1003, 7, 20, 0, -239_024),
    // 6,752,639 x 6,350 = 42,879,257,650; / 48,976 = 875,515 and 35,010 over: up.
    (1003, 8, 20, 0, -875_516),
    // 887,501 x 31,400 = 27,867,531,400; / 36,477 = 763,975 and 15,325 over, less than
    // 18,238.5.
    (77, 9, 2, 0, -763_975),
    // 887,500 x 26 = 23,075,000; / 1,229 = 18,775 and 525 over, less than 614.5.
    (77, 10, 2, 0, -18_775),
    // 1,612,501 x 8,250 = 13,303,133,250; / 35,433 = 375,444 and 25,998 over, more than
    // 17,716.5: up.
    (77, 9, 4, 0, -375_445),
    // 1,612,501 x 4,900 = 7,901,254,900; / 4,991 = 1,583,100 and 2,800 over, more than
    // 2,495.5: up.
    (77, 10, 4, 0, -1_583_101),
];

/// The lines of account 305, which has energy only, in SA1.
const ENERGY_ONLY: [Listed; 8] = [
    // Own ACE 27,183 of 71,910, both / 3: 6,000,000,013 x 9,061 = 54,366,000,117,793;
    // / 23,970 = 2,268,085,111 and 7,123 over, less than 11,985.
    (41, 1, 6, 0, -2_268_085_111),
    // 5,537,856 x 28,093 = 155,574,988,608; / 48,976 = 3,176,555 and 30,928 over: up.
    (1003, 6, 20, 0, -3_176_556),
    // 1,843,531 x 28,093 = 51,790,316,383; / 48,976 = 1,057,463 and 8,495 over.
    (1003, 7, 20, 0, -1_057_463),
    // 6,752,639 x 28,093 = 189,701,887,427; / 48,976 = 3,873,364 and 12,163 over.
    (1003, 8, 20, 0, -3_873_364),
    // No energy in QLD1: lines of 0 are written.
    (77, 9, 2, 0, 0),
    (77, 10, 2, 0, 0),
    // 1,612,501 x 27,183 = 43,832,614,683; / 35,433 = 1,237,056 and 9,435 over.
    (77, 9, 4, 0, -1_237_056),
    // 1,612,501 x 91 = 146,737,591; / 4,991 = 29,400 and 2,191 over, less than 2,495.5.
    (77, 10, 4, 0, -29_400),
];

/// The pools as amount, lines, sum. What account 70,001 adds to the sums is worked
/// here, for its statement is not compared.
const POOLS: [(i64, u64, i64); 5] = [
    // Account 70,001: 6,000,000,013 x 5,077 = 30,462,000,066,001; / 71,910 = 423,612,850
    // and 22,501 over, less than 35,955. 3,308,302,051 + 2,268,085,111 + 423,612,850 is
    // one short of the cost: all three were rounded down.
    (6_000_000_013, 3, -6_000_000_012),
    // 4 unit rows and 3 accounts. Unit 802: 26,247,382 x 0.633333 = 16,623,333.184206,
    // 16,623,333. Unit 65,541: 26,247,382 x -0.539013 = -14,147,680.113966, -14,147,680.
    // Residual: 5,537,856 x 14,533 = 80,481,661,248; / 48,976 = 1,643,287 and 37,136
    // over, -1,643,288. Sum: 16,623,333 + 9,624,049 - 6,561,846 - 14,147,680 = 5,537,856;
    // 718,013 + 3,176,556 + 1,643,288 = 5,537,857.
    (0, 7, -1),
    // Unit 802: 0. Unit 65,541: 8,737,654 x -0.539013 = -4,709,709.095502, -4,709,709.
    // Residual: 1,843,531 x 14,533 = 26,792,036,023; / 48,976 = 547,044 and 9,079 over,
    // -547,044. Sum: 2,184,414 + 4,709,709 = 6,894,123;
    // 239,024 + 1,057,463 + 547,044 = 1,843,531.
    (8_737_654, 7, -8_737_654),
    // Unit 802: 14,719,135 x -0.223456 = -3,289,079.03056, -3,289,079. Unit 65,541:
    // 14,719,135 x -0.091234 = -1,342,885.56259, -1,342,886. Residual: 6,752,639 x 14,533
    // = 98,136,102,587; / 48,976 = 2,003,759 and 1,803 over, -2,003,759. Sum:
    // 2,207,885 + 3,289,079 + 1,126,647 + 1,342,886 = 7,966,497;
    // 875,516 + 3,873,364 + 2,003,759 = 6,752,639.
    (14_719_135, 7, -14_719_136),
    // 3 accounts, 2 regions, 2 halves. Account 70,001 in QLD1: 887,501 x 5,077 =
    // 4,505,842,577; / 36,477 = 123,525 and 21,152 over, -123,526. 887,500 x 1,203 =
    // 1,067,662,500; / 1,229 = 868,724 and 704 over, -868,725. In SA1 0 and 0. Sums:
    // 763,975 + 0 + 123,526 = 887,501; 18,775 + 0 + 868,725 = 887,500;
    // 375,445 + 1,237,056 = 1,612,501; 1,583,101 + 29,400 = 1,612,501.
    (5_000_003, 12, -5_000_003),
];

/// A stage and its region, the divisor, and what was cut off.
type Cut = (Stage, Option<Region>, u64, i64);

/// What is over after a division is cut off where it was rounded down; where it was rounded
/// up, the divisor is missing of it. Below 0 it is the other way round.
const CUT_OFF: [&[Cut]; 5] = [
    // All three were rounded down: 2,804 x 10, 7,123 x 3 and 22,501 over. Together that is
    // the whole total.
    &[(Stage::Line, None, 71_910, 71_910)],
    &[
        // 92 over, and up: 92 - 120.
        (Stage::Pool, None, 120, -28),
        // Units 801, 802, 65,540 and 65,541: 500,000 + 184,206 - 184,206 - 113,966.
        (Stage::Unit, None, 1_000_000, 386_034),
        (Stage::Residual, None, 1_000_000, -386_034),
        // All three were rounded up in size, and 29,888, 30,928 and 37,136 were over: 19,088 +
        // 18,048 + 11,840.
        (Stage::Share, None, 48_976, 48_976),
    ],
    &[
        // 8,737,653.9025, and up.
        (Stage::Pool, None, 1_000_000, -97_500),
        // Units 801 and 65,541: 500,000 - 95,502.
        (Stage::Unit, None, 1_000_000, 404_498),
        (Stage::Residual, None, 1_000_000, -404_498),
        // 48,976 - 31,402 = 17,574, and 8,495 + 9,079 is as much.
        (Stage::Share, None, 48_976, 0),
    ],
    &[
        // Minus what used cut off.
        (Stage::Pool, None, 1_000_000, 97_500),
        // Units 801, 802, 65,540 and 65,541: 30,865 - 30,560 + 249,695 + 437,410.
        (Stage::Unit, None, 1_000_000, 687_410),
        // -6,752,638.68741, and up in size: with the units' that makes the 1 left over.
        (Stage::Residual, None, 1_000_000, 312_590),
        // 48,976 - 35,010 = 13,966, and 12,163 + 1,803 is as much.
        (Stage::Share, None, 48_976, 0),
    ],
    &[
        // 1,775,001.065, an odd number. By ACE 15,325 over, and 21,152 over and up: 15,325 is
        // missing. By ASOE 525 x 100 over, and 704 x 100 over and up: 52,500 is missing.
        (Stage::Whole, Some(Region::Qld1), 1_000_000, 65_000),
        (Stage::Half, Some(Region::Qld1), 2, -1),
        (Stage::Ace, Some(Region::Qld1), 36_477, 0),
        (Stage::Asoe, Some(Region::Qld1), 122_900, 0),
        // 3,225,001.935, and up. By ACE 25,998 over and up: 9,435 is missing, and 9,435 over.
        // By ASOE 2,800 x 10 over and up: 21,910 is missing, and 2,191 x 10 over.
        (Stage::Whole, Some(Region::Sa1), 1_000_000, -65_000),
        (Stage::Half, Some(Region::Sa1), 2, 0),
        (Stage::Ace, Some(Region::Sa1), 35_433, 0),
        (Stage::Asoe, Some(Region::Sa1), 49_910, 0),
    ],
];

/// Two hex digits as a byte. A lone digit is a slip of the pen, not a small byte.
fn byte(pair: &[char]) -> u8 {
    assert_eq!(pair.len(), 2, "a byte has two digits: {pair:?}");
    pair.iter().fold(0, |high, digit| {
        let low = digit.to_digit(16).expect("a hex digit");
        16 * high + u8::try_from(low).expect("a digit is below 16")
    })
}

/// The bytes of one line of the text: what stands before a `#`, whatever the blanks.
fn bytes(line: &str) -> Vec<u8> {
    let before = line.split('#').next().unwrap_or_default();
    let digits: Vec<char> = before.chars().filter(|c| !c.is_whitespace()).collect();
    digits.chunks(2).map(byte).collect()
}

/// The book, read from the annotated text so that no code of this package packs it.
fn book() -> Vec<u8> {
    let text = fs::read_to_string(in_repository("books/by_hand.txt"));
    let text = text.expect("the text is in the repository");
    text.lines().flat_map(bytes).collect()
}

/// The book with other bytes at an offset.
fn changed(at: usize, other: &[u8]) -> Vec<u8> {
    let mut book = book();
    book[at..at + other.len()].copy_from_slice(other);
    book
}

/// Exchanges two stretches of a book, as a slip in the order of records does.
fn exchange(book: &mut [u8], first: usize, second: usize, length: usize) {
    for at in 0..length {
        book.swap(first + at, second + at);
    }
}

/// What a book is answered, with the book by hand as the locked one.
fn check(changed: &[u8]) -> Result<(), Refusal> {
    fervolatro::check(changed, Some(&book()))
}

/// What a check answers that refuses.
fn refused(reason: Reason, place: usize) -> Result<(), Refusal> {
    Err(Refusal { reason, place })
}

/// A line as the package gives it. A unit of 0 is none.
fn line(&(id, part, regions, unit, amount): &Listed) -> Line {
    Line {
        id,
        part: Part::from_number(part).expect("parts are 1 to 10"),
        regions: Regions::from_mask(regions).expect("regions are 1 to 31"),
        unit: (unit != 0).then_some(unit),
        amount,
    }
}

/// Compares an account's statement with the lines worked by hand, header included.
fn compare_statement(account: u32, listed: &[Listed]) {
    let length = 24 + 24 * listed.len();
    let (book, locked) = (book(), book());
    let asked = fervolatro::length(&book, Some(&locked), account);
    assert_eq!(asked, Ok(length));
    let statement = fervolatro::statement(&book, Some(&locked), account).expect("settled");
    assert_eq!(statement.len(), length);
    let heading = Heading {
        account,
        date: 20_280_229,
        interval: 217,
        run: 37,
        lines: u16::try_from(listed.len()).expect("few lines"),
    };
    let read = Statement::read(&statement).expect("it is a statement");
    assert_eq!(read.heading(), &heading);
    assert_eq!(fervolatro::header(&statement), Ok(heading));
    let lines: Vec<Line> = listed.iter().map(line).collect();
    assert!(read.lines().eq(lines.iter().copied()), "{read:?}");
    for (index, line) in (0..).zip(lines) {
        let got = fervolatro::line(&statement, index);
        assert_eq!(got, Ok(line), "line {index} of account {account}");
    }
}

#[test]
fn the_book_is_accepted() {
    assert_eq!(book().len(), 400);
    assert_eq!(check(&book()), Ok(()));
}

/// The contract stands at 364.
#[test]
fn the_book_is_refused_by_itself() {
    let given = fervolatro::check(&book(), None);
    assert_eq!(given, refused(Reason::NoLocked, 364));
}

#[test]
fn an_account_with_units_has_its_lines() {
    compare_statement(12, &WITH_UNITS);
}

#[test]
fn an_account_with_energy_only_has_its_lines() {
    compare_statement(305, &ENERGY_ONLY);
}

#[test]
fn every_pool_has_its_balance_and_no_more_pools_are_there() {
    for (pool, (amount, lines, sum)) in (0..).zip(POOLS) {
        let balance = Balance { amount, lines, sum };
        let given = fervolatro::balance(&book(), Some(&book()), pool);
        assert_eq!(given, Ok(balance), "pool {pool}");
    }
    let past = Refusal {
        reason: Reason::PastEnd,
        place: 0,
    };
    let given = fervolatro::balance(&book(), Some(&book()), 5);
    assert_eq!(given, Err(past));
}

#[test]
fn every_stage_cuts_off_what_is_over() {
    for (pool, stages) in (0..).zip(CUT_OFF) {
        let by_hand = stages.iter().map(|&(stage, region, divisor, cut)| Cutoff {
            stage,
            region,
            divisor,
            cut,
        });
        let given = fervolatro::cutoffs(&book(), Some(&book()), pool);
        assert_eq!(given, Ok(by_hand.collect()), "pool {pool}");
    }
}

/// Accounts 12 and 305 and 70,001 have energy; the unit rows name 12 and 70,001.
#[test]
fn the_accounts_are_listed() {
    let accounts = fervolatro::accounts(&book(), Some(&book()));
    assert_eq!(accounts, Ok(vec![12, 305, 70_001]));
}

/// Constraint 41: service 4, mask 6, mode 0. Constraint 1,003: service 10, mask 20,
/// mode 1, and so three pools. Contract 77.
#[test]
fn the_pools_are_listed() {
    let lower = Source::Constraint {
        id: 41,
        service: Service::FastLower,
        regions: Regions::from_iter([Region::Qld1, Region::Sa1]),
        mode: Mode::Contingency,
    };
    let regulation = Source::Constraint {
        id: 1_003,
        service: Service::RegulationLower,
        regions: Regions::from_iter([Region::Sa1, Region::Vic1]),
        mode: Mode::Factored,
    };
    let pools = fervolatro::pools(&book(), Some(&book())).expect("the book is accepted");
    let listed = pools
        .iter()
        .map(|pool| (pool.number, pool.source, pool.kind));
    let by_hand = [
        (0, lower, PoolKind::Contingency),
        (1, regulation, PoolKind::Fpp),
        (2, regulation, PoolKind::Used),
        (3, regulation, PoolKind::Unused),
        (4, Source::Contract { id: 77 }, PoolKind::Contract),
    ];
    assert!(listed.eq(by_hand), "{pools:?}");
}

/// The fault is the row's at 224, but the place is that of the constraint it names.
#[test]
fn a_default_factor_one_off_fails_the_sums_of_its_constraint() {
    // Unit 65,541's dcf is -91,233 for -91,234: one more is 9F for 9E.
    assert_eq!(check(&changed(240, &[0x9F])), refused(Reason::Factors, 124));
}

#[test]
fn a_region_entry_one_off_differs_from_its_rows() {
    // SA1's asoe is 49,911 for 49,910; its entry starts at 48.
    assert_eq!(
        check(&changed(52, &[0xF7])),
        refused(Reason::RegionEntry, 48)
    );
}

/// The place is the later of the two rows: the one that is not above its forerunner.
#[test]
fn exchanged_unit_rows_do_not_rise() {
    let mut book = book();
    exchange(&mut book, 164, 184, 20);
    assert_eq!(check(&book), refused(Reason::Order, 184));
}

/// Their product is the same either way: only their ranges tell price from RCR.
#[test]
fn exchanged_price_and_rcr_are_out_of_range() {
    let mut book = book();
    exchange(&mut book, 140, 144, 4);
    assert_eq!(check(&book), refused(Reason::Field, 124));
}

/// A lower number goes before a lower offset.
#[test]
fn a_benefit_factor_one_off_is_refused_before_exchanged_rows() {
    // SA1's factor is 645,001 for 645,000.
    let mut book = changed(388, &[0x89]);
    exchange(&mut book, 164, 184, 20);
    assert_eq!(check(&book), refused(Reason::Field, 364));
}

#[test]
fn a_unit_row_may_not_name_the_contingency_constraint() {
    // 41 for 1,003, and the pair (41, 801) still stands below (1,003, 802). The factor
    // sums of 1,003 fail too, but that is 8.
    let book = changed(164, &[0x29, 0x00]);
    assert_eq!(check(&book), refused(Reason::NoConstraint, 164));
}

#[test]
fn a_contract_may_not_benefit_a_region_without_energy() {
    // SA1's factor of 645,000 goes to TAS1, which has no row.
    let mut book = book();
    exchange(&mut book, 388, 392, 4);
    assert_eq!(check(&book), refused(Reason::ZeroTotal, 364));
}
