//! Books with a locked book beside them, worked out by hand from the request for it (02,
//! Req 04) and the scope document (01). Library and reference both have to give these
//! answers.
//!
//! The current book is of run 3 and 284 bytes: constraints 5 and 6 at 84 and 124, energy
//! rows at 164 and 188, contracts 1 (kind 1) and 2 (kind 2) at 212 and 248. The locked one
//! is of run 2. All energy is in NSW1, in kWh:
//!
//! | | current ACE | ASOE | residual | locked ACE | ASOE |
//! |---|---|---|---|---|---|
//! | account 7 | -30 | 10 | 40 | -60 | 5 |
//! | account 8 | | | | -20 | 15 |
//! | account 9 | -70 | 40 | 110 | | |
//! | total | -100 | 50 | 150 | -80 | 20 |
//!
//! Account 6 has a unit row of the locked book, and no other row of either.

use fervolatro_testing::book::{Book, Constraint};
use fervolatro_testing::books::{Books, Encoded, Pair};
use fervolatro_testing::harness::{Answer, Call, Given, Run, Units, LIBRARY};
use fervolatro_testing::requests::worked::{
    book_of, constraint, contract, energy_row, unit_row, worked_book,
};
use fervolatro_testing::statement::{Line, Statement};
use fervolatro_testing::{library, reference, Balance, Heading, Refusal};

const NSW1: [u32; 5] = [1_000_000, 0, 0, 0, 0];
const QLD1: [u32; 5] = [0, 1_000_000, 0, 0, 0];

/// The places of the two contracts.
const FIRST: usize = 212;
const SECOND: usize = 248;

fn current_book() -> Book {
    let default = Constraint {
        drcf: -1_000_000,
        ..constraint(6, 9, 2, 1, 500)
    };
    let energies = [
        energy_row(7, 0, [-30, 10, -30, 10]),
        energy_row(9, 0, [-70, 40, -70, 40]),
    ];
    let mut book = book_of(&[constraint(5, 2, 0, 1, 1_000), default], &[], &energies);
    book.contracts = vec![contract(1, 1, 1_001, NSW1), contract(2, 2, 2_003, NSW1)];
    book.header.run = 3;
    book
}

/// DCF -500,000 and DRCF -500,000 make -1,000,000.
fn locked_book() -> Book {
    let default = Constraint {
        drcf: -500_000,
        ..constraint(1, 10, 2, 1, 0)
    };
    let energies = [
        energy_row(7, 0, [-60, 5, 0, 0]),
        energy_row(8, 0, [-20, 15, 0, 0]),
    ];
    let units = [unit_row(1, 1, 6, 0, -500_000)];
    let mut book = book_of(&[default], &units, &energies);
    book.header.run = 2;
    book
}

fn pair() -> Pair {
    Pair::of(current_book(), locked_book())
}

/// The pair after a change of each book.
fn changed(current: fn(&mut Book), locked: fn(&mut Book)) -> Pair {
    let (mut book, mut other) = (current_book(), locked_book());
    current(&mut book);
    locked(&mut other);
    Pair::of(book, other)
}

fn unchanged(_: &mut Book) {}

/// What library and reference answer, who have to agree.
fn asked<'b>(books: impl Into<Books<'b>>, call: Call) -> Given {
    Run::new(LIBRARY, Units::Own).compare(call, books)
}

fn refused<A>(number: u8, place: usize) -> Result<A, Refusal> {
    Err(Refusal { number, place })
}

/// Every call on a book is refused so, whatever else it asks for: an account that is there
/// or not, a pool that is there or not, a buffer that is too short.
fn assert_refused<'b>(books: impl Into<Books<'b>>, number: u8, place: usize) {
    let books = books.into();
    for call in [
        Call::Check,
        Call::Length { account: 7 },
        Call::Length { account: 10 },
        Call::WholeStatement { account: 8 },
        Call::Statement {
            account: 7,
            room: 0,
        },
        Call::Balance { pool: 0 },
        Call::Balance { pool: 99 },
        Call::Cutoff { pool: 0, index: 0 },
        Call::AllCutoffs { pool: 99 },
        Call::Accounts,
        Call::Pools,
    ] {
        assert_eq!(asked(books, call), refused(number, place), "{call:?}");
    }
}

fn assert_accepted<'b>(books: impl Into<Books<'b>>) {
    assert_eq!(asked(books, Call::Check), Ok(Answer::Nothing));
}

fn statement<'b>(books: impl Into<Books<'b>>, account: u32) -> Vec<u8> {
    match asked(books, Call::WholeStatement { account }) {
        Ok(Answer::Bytes(bytes)) => bytes,
        other => panic!("account {account} has no statement: {other:?}"),
    }
}

/// The account has lines of these amounts, and no others.
fn assert_amounts(pair: &Pair, account: u32, amounts: &[i64]) {
    let written = statement(&pair.encode(), account);
    let lines = Statement::decode(&written).lines;
    let written: Vec<i64> = lines.iter().map(|line| line.amount).collect();
    assert_eq!(written, amounts, "account {account}");
}

/// The book has these pools, as amount, lines and sum, and no others.
fn assert_pools(pair: &Pair, pools: &[(i64, u64, i64)]) {
    let bytes = pair.encode();
    for (pool, &(amount, lines, sum)) in (0..).zip(pools) {
        let balance = Balance { amount, lines, sum };
        let given = asked(&bytes, Call::Balance { pool });
        assert_eq!(given, Ok(Answer::Balance(balance)), "pool {pool}");
    }
    let pool = pools.len() as u64;
    assert_eq!(asked(&bytes, Call::Balance { pool }), refused(15, 0));
}

// Lines and balances.

/// Constraint 5, lower, 1,000 by ACE of 100: 30 of it for account 7 and 70 for account 9.
/// Constraint 6, all residual, 500 by 150: x 40 = 133.3 and x 110 = 366.7.
///
/// Contract 1, by the current book: r = 1,001, halves 501 and 500. Account 7: 501 x 30 /
/// 100 = 150.3; 500 x 10 / 50 = 100. Account 9: 501 x 70 / 100 = 350.7; 500 x 40 / 50 =
/// 400.
///
/// Contract 2, by the locked one: r = 2,003, halves 1,002 and 1,001. Account 7: 1,002 x 60
/// / 80 = 751.5, away from zero 752; 1,001 x 5 / 20 = 250.25. Account 8: 1,002 x 20 / 80 =
/// 250.5, so 251; 1,001 x 15 / 20 = 750.75. Account 9 has nothing there.
#[test]
fn lines_by_the_book_of_the_kind() {
    assert_amounts(&pair(), 7, &[-300, -133, -150, -100, -752, -250]);
    assert_amounts(&pair(), 8, &[0, 0, 0, 0, -251, -751]);
    assert_amounts(&pair(), 9, &[-700, -367, -351, -400, 0, 0]);
    assert_amounts(&pair(), 6, &[0; 6]);
}

/// What the lines are: id, part, regions; none of a unit. 01: "Parts: 1 contingency by
/// ACE", "8 unused", "9 contract by ACE, 10 by ASOE". Header, 24 bytes, and six lines: 168.
#[test]
fn lines_of_an_account_of_the_locked_book_alone() {
    let bytes = pair().encode();
    for account in [6, 8] {
        let length = asked(&bytes, Call::Length { account });
        assert_eq!(length, Ok(Answer::Length(168)));
        let lines = Statement::decode(&statement(&bytes, account)).lines;
        let lines = lines.iter().map(|of| (of.id, of.part, of.regions, of.unit));
        let expected = [
            (5, 1, 1, 0),
            (6, 8, 1, 0),
            (1, 9, 1, 0),
            (1, 10, 1, 0),
            (2, 9, 1, 0),
            (2, 10, 1, 0),
        ];
        assert!(lines.eq(expected), "account {account}");
    }
}

/// Accounts 6 to 9: one line each in the pools of constraints, two in those of contracts.
/// 300 + 700 = 1,000; 133 + 367 = 500; 150 + 100 + 351 + 400 = 1,001; 752 + 250 + 251 + 751
/// = 2,004, one more than is to be recovered.
#[test]
fn balances_over_the_accounts_of_both_books() {
    let pools = [
        (1_000, 4, -1_000),
        (500, 4, -500),
        (1_001, 8, -1_001),
        (2_003, 8, -2_004),
    ];
    assert_pools(&pair(), &pools);
    let accounts = asked(&pair().encode(), Call::Accounts);
    assert_eq!(accounts, Ok(Answer::Accounts(vec![6, 7, 8, 9])));
}

/// With the kinds exchanged. Contract 1 by the locked book: 501 x 60 / 80 = 375.75; 500 x 5
/// / 20 = 125; 501 x 20 / 80 = 125.25; 500 x 15 / 20 = 375. Contract 2 by the current one:
/// 1,002 x 30 / 100 = 300.6; 1,001 x 10 / 50 = 200.2; 1,002 x 70 / 100 = 701.4; 1,001 x 40
/// / 50 = 800.8. Sums: 376 + 125 + 125 + 375 = 1,001; 301 + 200 + 701 + 801 = 2,003.
#[test]
fn kinds_exchanged() {
    let exchange = |book: &mut Book| {
        book.contracts[0].kind = 2;
        book.contracts[1].kind = 1;
    };
    let pair = changed(exchange, unchanged);
    assert_amounts(&pair, 7, &[-300, -133, -376, -125, -301, -200]);
    assert_amounts(&pair, 8, &[0, 0, -125, -375, 0, 0]);
    assert_amounts(&pair, 9, &[-700, -367, 0, 0, -701, -801]);
    let pools = [
        (1_000, 4, -1_000),
        (500, 4, -500),
        (1_001, 8, -1_001),
        (2_003, 8, -2_003),
    ];
    assert_pools(&pair, &pools);
}

/// The current book as its own locked one. Contract 2 is then shared as in the test
/// before, and accounts 7 and 9 are all there are.
#[test]
fn the_same_bytes_twice() {
    let pair = Pair::of(current_book(), current_book());
    assert_amounts(&pair, 7, &[-300, -133, -150, -100, -301, -200]);
    assert_amounts(&pair, 9, &[-700, -367, -351, -400, -701, -801]);
    let length = asked(&pair.encode(), Call::Length { account: 8 });
    assert_eq!(length, refused(11, 0));
    let pools = [
        (1_000, 2, -1_000),
        (500, 2, -500),
        (1_001, 4, -1_001),
        (2_003, 4, -2_003),
    ];
    assert_pools(&pair, &pools);
}

/// Two regions, each by the locked book's own totals. 1,000 x 0.3 = 300, halves 150; 1,000
/// x 0.7 = 700, halves 350. NSW1 as above: account 7 has 150 x 60 / 80 = 112.5, so 113, and
/// 150 x 5 / 20 = 37.5, so 38. QLD1, where account 7 has ACE -1 of -4 and ASOE 2 of 3: 350 /
/// 4 = 87.5, so 88, and 350 x 2 / 3 = 233.3.
#[test]
fn a_test_payment_over_two_regions() {
    let pair = changed(
        |book| book.contracts[1] = contract(2, 2, 1_000, [300_000, 700_000, 0, 0, 0]),
        |locked| {
            locked.energies.insert(1, energy_row(7, 1, [-1, 2, 0, 0]));
            locked.energies.push(energy_row(8, 1, [-3, 1, 0, 0]));
            locked.total_regions();
        },
    );
    assert_amounts(&pair, 7, &[-300, -133, -150, -100, -113, -38, -88, -233]);
}

// 17: "when a kind 2 contract has no locked book".

#[test]
fn no_locked_book() {
    assert_refused(&current_book().encode(), 17, SECOND);
}

/// "After 9 and before 10": constraint 5 in QLD1, where no energy is, would be 10 at 84,
/// and contract 1 there 10 at 212.
#[test]
fn no_locked_book_before_a_zero_total() {
    for change in [
        |book: &mut Book| book.constraints[0].regions = 0b00010,
        |book: &mut Book| book.contracts[0].factors = QLD1,
    ] {
        let pair = changed(change, unchanged);
        assert_refused(&pair.book.encode(), 17, SECOND);
    }
}

/// 9 comes first: NSW1's entry stands at 24.
#[test]
fn a_wrong_entry_before_no_locked_book() {
    let mut book = current_book();
    book.regions[0].residual = 151;
    assert_refused(&book.encode(), 9, 24);
    assert_refused(Books::of(&book.encode(), b"no book"), 9, 24);
}

/// "Both at the first such contract."
#[test]
fn the_first_of_several() {
    let mut book = current_book();
    book.contracts.push(contract(3, 2, 0, NSW1));
    assert_refused(&book.encode(), 17, SECOND);
    assert_refused(Books::of(&book.encode(), b"no book"), 18, SECOND);
    book.contracts[0].kind = 2;
    assert_refused(&book.encode(), 17, FIRST);
    assert_refused(Books::of(&book.encode(), b"no book"), 18, FIRST);
}

// 18: "when the locked book fails one of checks 1 to 9, has another date or interval, or a
// later run".

/// A locked book, and the number that it fails by itself.
type Failing = (u8, fn(&mut Book));

/// The locked book's constraint stands at 84, its unit row at 124, its energy rows at 144
/// and 168.
const FAILING: [Failing; 10] = [
    (2, |locked| locked.header.mark = *b"RCS"),
    (2, |locked| locked.header.version = 2),
    (3, |locked| locked.header.interval = 289),
    (3, |locked| locked.header.run = 0),
    (5, |locked| locked.constraints[0].reserved = 1),
    (5, |locked| locked.energies[1].asoe = -1),
    // Account 8 before account 7.
    (6, |locked| locked.energies.swap(0, 1)),
    (7, |locked| locked.units[0].constraint = 2),
    // -500,000 - 499,999.
    (8, |locked| locked.constraints[0].drcf = -499_999),
    // Its rows make -80.
    (9, |locked| locked.regions[0].ace = -81),
];

#[test]
fn locked_books_that_fail_a_check() {
    for (number, change) in FAILING {
        let bytes = changed(unchanged, change).encode();
        let by_itself = reference::check(&bytes.locked).map_err(|refusal| refusal.number);
        assert_eq!(by_itself, Err(number));
        assert_refused(&bytes, 18, SECOND);
    }
}

/// 83 bytes fail check 1, a byte less and one more check 4.
#[test]
fn locked_books_of_another_length() {
    let Encoded { book, mut locked } = pair().encode();
    assert_eq!(locked.len(), 192);
    locked.push(0);
    for length in [1, 83, 84, 191, 193] {
        assert_refused(Books::of(&book, &locked[..length]), 18, SECOND);
    }
    assert_accepted(Books::of(&book, &locked[..192]));
}

/// The current book is of 20250608, interval 1, run 3.
#[test]
fn locked_books_of_another_period() {
    for change in [
        |locked: &mut Book| locked.header.date = 20_250_607,
        |locked: &mut Book| locked.header.date = 20_250_609,
        |locked: &mut Book| locked.header.date = 20_260_608,
        |locked: &mut Book| locked.header.interval = 2,
        |locked: &mut Book| locked.header.interval = 288,
        |locked: &mut Book| locked.header.run = 4,
        |locked: &mut Book| locked.header.run = 99,
    ] {
        assert_refused(&changed(unchanged, change).encode(), 18, SECOND);
    }
}

/// "A later run" is refused; the same run and an earlier one are not.
#[test]
fn locked_books_of_the_same_run_and_earlier() {
    for run in 1..=3 {
        let mut pair = pair();
        let locked = pair.locked.as_mut().expect("there is one");
        locked.header.run = run;
        assert_accepted(&pair.encode());
        assert_amounts(&pair, 8, &[0, 0, 0, 0, -251, -751]);
    }
}

/// Before 10 too, at a lower offset.
#[test]
fn a_wrong_locked_book_before_a_zero_total() {
    let no_energy = |book: &mut Book| book.constraints[0].regions = 0b00010;
    let later = |locked: &mut Book| locked.header.run = 4;
    assert_refused(&changed(no_energy, later).encode(), 18, SECOND);
    assert_refused(&changed(no_energy, unchanged).encode(), 10, 84);
}

/// Of the locked book no more than checks 1 to 9 are asked: it may have contracts of kind 2
/// with no locked book of its own, and totals of 0 to divide by.
#[test]
fn what_is_not_asked_of_the_locked_book() {
    let pair = changed(unchanged, |locked| {
        locked.contracts = vec![contract(9, 2, 5, QLD1)];
    });
    let bytes = pair.encode();
    // 84 + 40 + 20 + 2 x 24.
    assert_eq!(reference::check(&bytes.locked), refused(17, 192));
    assert_amounts(&pair, 8, &[0, 0, 0, 0, -251, -751]);
    // No row of it is residual, so its own constraint has nothing to divide by.
    let locked = locked_book().encode();
    assert_eq!(reference::check(&locked), refused(10, 84));
}

// 10: "Check 10 for kind 2 reads the locked totals."

/// The current book has energy in NSW1; the locked one has no ACE there, or no ASOE, or no
/// rows at all.
#[test]
fn no_energy_in_the_locked_book() {
    for change in [
        |locked: &mut Book| locked.energies.iter_mut().for_each(|row| row.ace = 0),
        |locked: &mut Book| locked.energies.iter_mut().for_each(|row| row.asoe = 0),
        |locked: &mut Book| locked.energies.clear(),
    ] {
        let mut pair = changed(unchanged, change);
        let locked = pair.locked.as_mut().expect("there is one");
        locked.total_regions();
        assert_refused(&pair.encode(), 10, SECOND);
    }
}

/// The lowest offset of both books' totals: contract 1 at 212 has no energy in QLD1 of the
/// current book, contract 2 at 248 none in QLD1 of the locked one.
#[test]
fn zero_totals_of_both_books() {
    let both = |book: &mut Book| {
        book.contracts[0].factors = QLD1;
        book.contracts[1].factors = QLD1;
    };
    assert_refused(&changed(both, unchanged).encode(), 10, FIRST);
    let second = |book: &mut Book| book.contracts[1].factors = QLD1;
    assert_refused(&changed(second, unchanged).encode(), 10, SECOND);
}

/// The locked book has energy in QLD1, where the current one has none: contract 2 may
/// benefit it, and contract 1 may not. 2,003 in QLD1, all of it account 8's: 1,002 and
/// 1,001.
#[test]
fn no_energy_in_the_current_book() {
    let in_queensland = |locked: &mut Book| {
        locked.energies.push(energy_row(8, 1, [-4, 2, 0, 0]));
        locked.total_regions();
    };
    let second = |book: &mut Book| book.contracts[1].factors = QLD1;
    let pair = changed(second, in_queensland);
    assert_amounts(&pair, 7, &[-300, -133, -150, -100, 0, 0]);
    assert_amounts(&pair, 8, &[0, 0, 0, 0, -1_002, -1_001]);
    let first = |book: &mut Book| book.contracts[0].factors = QLD1;
    assert_refused(&changed(first, in_queensland).encode(), 10, FIRST);
}

// 11: "when no book read names the account".

#[test]
fn accounts_that_no_book_names() {
    let bytes = pair().encode();
    for account in [0, 5, 10, u32::MAX] {
        assert_eq!(asked(&bytes, Call::Length { account }), refused(11, 0));
        let whole = asked(&bytes, Call::WholeStatement { account });
        assert_eq!(whole, refused(11, 0));
    }
}

/// "One is read only where a kind 2 contract stands": accounts 6 and 8 are then nobody's,
/// and the locked book may be anything.
#[test]
fn a_locked_book_that_is_not_read() {
    let ordinary = |book: &mut Book| book.contracts[1].kind = 1;
    let book = changed(ordinary, unchanged).book.encode();
    let locked = locked_book().encode();
    for slice in [&[][..], &locked, b"no book", &[0; 84], &book] {
        let books = Books::of(&book, slice);
        assert_accepted(books);
        for account in [6, 8] {
            assert_eq!(asked(books, Call::Length { account }), refused(11, 0));
        }
        let accounts = asked(books, Call::Accounts);
        assert_eq!(accounts, Ok(Answer::Accounts(vec![7, 9])));
        assert_eq!(statement(books, 7), statement(&book, 7));
        let balance = asked(books, Call::Balance { pool: 3 });
        assert_eq!(balance, asked(&book, Call::Balance { pool: 3 }));
    }
}

/// No contract at all, so no locked book is read either.
#[test]
fn a_book_without_contracts() {
    let worked = worked_book().encode();
    let books = Books::of(&worked, b"no book");
    assert_eq!(statement(books, 7), statement(&worked, 7));
    let length = asked(books, Call::Length { account: 8 });
    assert_eq!(length, refused(11, 0));
}

// What comes after, and statements read back.

/// 13 and 15 come last: 168 bytes are just enough, and there are four pools.
#[test]
fn room_and_numbers_of_pools() {
    let bytes = pair().encode();
    let statement = |room| asked(&bytes, Call::Statement { account: 8, room });
    assert_eq!(statement(167), refused(13, 0));
    assert_eq!(statement(168), Ok(Answer::Length(168)));
    let balance = asked(&bytes, Call::Balance { pool: 4 });
    assert_eq!(balance, refused(15, 0));
}

/// "Interval, date and run as in the book": the current one, of run 3. What was written
/// with a locked book is read back, line by line, and written again.
#[test]
fn statements_are_read_back_and_written_again() {
    for (account, last) in [(6, 0), (7, -250), (8, -751), (9, 0)] {
        let bytes = statement(&pair().encode(), account);
        let heading = Heading {
            account,
            date: 20_250_608,
            interval: 1,
            run: 3,
            lines: 6,
        };
        assert_eq!(library::header(&bytes), Ok(heading));
        let settled = Statement::decode(&bytes).lines;
        let lines = settled.iter().map(Line::entry).collect();
        assert_eq!(library::lines(&bytes), Ok(lines));
        let line = library::line(&bytes, 5).expect("there are six");
        assert_eq!((line.id, line.part, line.amount), (2, 10, last));
        assert_eq!(library::whole_rewrite(&bytes), Ok(bytes));
    }
}

/// "The listing program lends no locked book."
#[test]
fn the_listing_lends_none() {
    let input = [&[7, 0, 0, 0], &current_book().encode()[..]].concat();
    assert_eq!(reference::listing(&input), "refused 17 at 248\n");
}
