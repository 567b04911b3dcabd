//! Compares the library's balances with the reference's, and the lists of pools and of
//! accounts: every pool of books of every size and sort of account, numbers past the
//! last pool, refused books. In a second test the library's own statements of all
//! accounts have to add up to its balances. Every pool has to close. A locked book is lent
//! where one is wanted, and often where none is.

use fervolatro_testing::book::Book;
use fervolatro_testing::books::{Encoded, Pair};
use fervolatro_testing::harness::report::shown;
use fervolatro_testing::harness::{
    constraint_over, every_mask, Answer, Call, Family, Run, Units, Wanted, LIBRARY,
};
use fervolatro_testing::reference::{self, Kind, Pool};
use fervolatro_testing::requests::accounts::{named, named_by, Holding};
use fervolatro_testing::requests::chosen::against_the_count;
use fervolatro_testing::requests::generate::{book_of_longest_statement, Sizes};
use fervolatro_testing::requests::locked::{locked_book, set_kinds};
use fervolatro_testing::requests::worked::{empty_book, worked_book};
use fervolatro_testing::statement::{Line, Statement};
use fervolatro_testing::{library, Balance, Books};

const ACCEPTED: &str = "accepted books";

const UNITS_ALONE: &str = "books with an account of units alone";

const LEFT_OVER: [&str; 3] = [
    "nothing left over",
    "something left over",
    "as much left over as may be",
];

#[test]
fn library_and_reference_balance_the_same() {
    let mut seen = all_pools();
    seen.push((ACCEPTED.to_owned(), 30_000));
    seen.push((UNITS_ALONE.to_owned(), 10_000));
    Run::over(&FAMILIES, LIBRARY, Units::Either).finish(&Wanted {
        inputs: 38_000,
        answers: &[
            ("accounts", &[0, 1, 2, 3, 4, 5, 6, 7, 8, 9, 10, 17, 18]),
            ("balance", &[0, 1, 2, 3, 4, 5, 6, 7, 8, 9, 10, 15, 17, 18]),
            ("pools", &[0, 1, 2, 3, 4, 5, 6, 7, 8, 9, 10, 17, 18]),
        ],
        seen,
    });
}

#[test]
fn statements_of_all_accounts_make_the_balance() {
    Run::over(&SUMS, LIBRARY, Units::Either).finish(&Wanted {
        inputs: 9_503,
        answers: &[],
        seen: all_pools(),
    });
}

const FAMILIES: [Family; 10] = [
    ("small books", |run| {
        accepted_books(run, 20_000, Sizes::SMALL)
    }),
    ("medium books", |run| {
        accepted_books(run, 5_000, Sizes::MEDIUM)
    }),
    ("an account in every region", every_region),
    ("halves", halves),
    ("amounts at their ends", ends),
    ("large books", large_books),
    ("books of few records", few_records),
    ("accounts chosen against the count", chosen_accounts),
    ("refused books", refused_books),
    ("turned bits", turned_bits),
];

const SUMS: [Family; 4] = [
    ("small books", |run| {
        sums(run, 8_000, |run| run.accepted(Sizes::SMALL))
    }),
    ("medium books", |run| {
        sums(run, 1_000, |run| run.accepted(Sizes::MEDIUM))
    }),
    ("halves", |run| sums(run, 500, Run::of_halves)),
    ("largest books", |run| {
        sums(run, 3, |run| run.accepted_of(Sizes::LARGEST))
    }),
];

/// Every kind of pool, over every mask of regions, and what it can leave over.
fn all_pools() -> Vec<(String, u64)> {
    let kinds = Kind::ALL.iter().map(|&kind| (pool_of(kind), 1_000));
    let left_over = LEFT_OVER.into_iter().zip([1_000, 1_000, 20]);
    let left_over = left_over.map(|(what, fewest)| (what.to_owned(), fewest));
    let masks = every_mask(constraint_over, 100);
    kinds.chain(left_over).chain(masks).collect()
}

fn pool_of(kind: Kind) -> String {
    format!("pool of {kind:?}")
}

/// Compares every pool of a book that has to be accepted.
fn compare_accepted(run: &mut Run, pair: &Pair) {
    let bytes = pair.encode();
    let is_accepted = compare(run, Books::from(&bytes));
    assert!(is_accepted, "not accepted: {}", shown(&bytes));
    let is_alone = |&account: &u32| Holding::of(&pair.book, account) == Holding::UnitsOnly;
    if named(&pair.book).iter().any(is_alone) {
        run.see(UNITS_ALONE);
    }
}

/// Compares the lists and every pool of a book, and numbers that no pool has; tells
/// whether the book is accepted.
fn compare(run: &mut Run, books: Books) -> bool {
    run.input();
    for list in [Call::Accounts, Call::Pools] {
        let _ = run.compare(list, books);
    }
    let balances = match reference::balances(books) {
        Ok(balances) => balances,
        Err(refusal) => {
            for pool in any_numbers(run) {
                run.expect(Call::Balance { pool }, books, Err(refusal));
            }
            return false;
        }
    };
    run.see(ACCEPTED);
    for number in numbers_past(run, balances.count()) {
        let past = balances.of(number).map(Answer::Balance);
        run.expect(Call::Balance { pool: number }, books, past);
    }
    let book = Book::decode(books.book);
    run.see_masks(&book);
    for (number, pool) in (0..).zip(&reference::pools(&book)) {
        let balance = balances.of(number).expect("it is a pool's number");
        let answer = Ok(Answer::Balance(balance));
        run.expect(Call::Balance { pool: number }, books, answer);
        see(run, pool, &balance, books);
    }
    true
}

/// The pool has to close; it is counted.
fn see(run: &mut Run, pool: &Pool, balance: &Balance, books: Books) {
    assert!(
        pool.closes(balance),
        "{pool:?} does not close: {balance:?}, {}",
        shown(books)
    );
    run.see(pool_of(pool.kind));
    let halves = 2 * (balance.amount + balance.sum).unsigned_abs();
    run.see(LEFT_OVER[usize::from(halves != 0)]);
    if halves == balance.lines + pool.more_halves {
        run.see(LEFT_OVER[2]);
    }
}

/// The first number that no pool has, the highest there is, and one that a pool
/// would have if some upper bits were cut.
fn numbers_past(run: &mut Run, count: u64) -> [u64; 3] {
    let inner = run.random.below(count as usize + 1) as u64;
    let upper = *run.random.pick(&[1 << 8, 1 << 16, 1 << 32, 1 << 63]);
    [count, u64::MAX, upper + inner]
}

/// Numbers to ask a refused book for.
fn any_numbers(run: &mut Run) -> [u64; 2] {
    [run.random.below(8) as u64, u64::MAX]
}

/// Compares every balance with the sum of what the library writes for all accounts, for
/// so many books.
fn sums(run: &mut Run, times: usize, draw: fn(&mut Run) -> Pair) {
    for _ in 0..times {
        let pair = draw(run);
        run.input();
        let bytes = pair.encode();
        let books = Books::from(&bytes);
        let lines = lines_of_all(books);
        run.see_masks(&pair.book);
        for (number, pool) in (0..).zip(&reference::pools(&pair.book)) {
            let balance = library::balance(books, number).expect("it is a pool's number");
            let summed = pool.balance(&lines);
            let place = run.place();
            assert_eq!(balance, summed, "{place}: pool {number}, {}", shown(books));
            see(run, pool, &balance, books);
        }
    }
}

/// The lines that the library writes for all accounts.
fn lines_of_all(books: Books) -> Vec<Line> {
    let accounts = library::accounts(books).expect("the book is accepted");
    let statements = accounts.into_iter().map(|account| {
        let statement = library::whole_statement(books, account);
        Statement::decode(&statement.expect("it is written"))
    });
    statements.flat_map(|statement| statement.lines).collect()
}

fn accepted_books(run: &mut Run, times: usize, most: Sizes) {
    for _ in 0..times {
        let pair = run.accepted(most);
        compare_accepted(run, &pair);
    }
}

fn every_region(run: &mut Run) {
    for _ in 0..1_000 {
        let (pair, _) = run.in_every_region(Sizes::SMALL);
        compare_accepted(run, &pair);
    }
}

fn halves(run: &mut Run) {
    for _ in 0..2_000 {
        let pair = run.of_halves();
        compare_accepted(run, &pair);
    }
}

fn ends(run: &mut Run) {
    for _ in 0..1_500 {
        let pair = run.at_ends();
        compare_accepted(run, &pair);
    }
}

fn large_books(run: &mut Run) {
    for round in 0..60 {
        let pair = run.large(round);
        compare_accepted(run, &pair);
    }
    let (mut book, _) = book_of_longest_statement(&mut run.random);
    compare_accepted(run, &Pair::alone(book.clone()));
    set_kinds(&mut book, 2);
    let pair = run.paired(book, Sizes::LARGEST);
    compare_accepted(run, &pair);
}

/// No record at all, records of one kind, and the worked book.
fn few_records(run: &mut Run) {
    compare_accepted(run, &Pair::alone(empty_book()));
    compare_accepted(run, &Pair::alone(worked_book()));
    for (constraints, contracts) in [(0, 0), (1, 0), (0, 1), (64, 0), (0, 16)] {
        for _ in 0..20 {
            let pair = run.accepted_of(Sizes {
                constraints,
                units: 0,
                energies: 3,
                contracts,
            });
            compare_accepted(run, &pair);
        }
    }
}

/// As the benchmark has them, of a book and of a pair, and with some unit rows handed to
/// accounts that other rows have, so that some are found.
fn chosen_accounts(run: &mut Run) {
    let medium = [8, 10, 14, 18, 22, 26].repeat(80).into_iter();
    let medium = medium.map(|bits| (Sizes::MEDIUM, bits));
    let largest = [10, 22].repeat(2).into_iter();
    let largest = largest.map(|bits| (Sizes::LARGEST, bits));
    for (sizes, bits) in medium.chain(largest) {
        let mut pair = chosen_pair(run, sizes, bits);
        compare_accepted(run, &pair);
        let accounts = named_by(&pair);
        let locked = pair.locked.iter_mut().flat_map(|of| &mut of.units);
        for row in pair.book.units.iter_mut().chain(locked) {
            if run.random.below(3) == 0 {
                row.account = *run.random.pick(&accounts);
            }
        }
        compare_accepted(run, &pair);
    }
}

/// A book by itself, or a pair, if so few bits are alike that there are enough accounts
/// for two.
fn chosen_pair(run: &mut Run, sizes: Sizes, bits: u32) -> Pair {
    let mut book = run.accepted_of(sizes).book;
    if bits > 20 || run.random.coin() {
        set_kinds(&mut book, 1);
        against_the_count(&mut run.random, &mut [&mut book], bits);
        return Pair::alone(book);
    }
    let mut locked = locked_book(&mut run.random, &book, sizes);
    against_the_count(&mut run.random, &mut [&mut book, &mut locked], bits);
    Pair::of(book, locked)
}

/// Each fault in the first, the middle and the last record that can have it, and
/// books cut short.
fn refused_books(run: &mut Run) {
    run.each_fault(Sizes::SMALL, 10, |run, _, books| {
        compare(run, books);
    });
    let Encoded { book, locked } = run.accepted_of(Sizes::SMALL).encode();
    for length in 0..book.len() {
        let is_accepted = compare(run, Books::of(&book[..length], &locked));
        assert!(!is_accepted, "{length} of {} bytes", book.len());
    }
}

fn turned_bits(run: &mut Run) {
    run.each_turned_book(6_000, |run, _, books| {
        compare(run, books);
    });
}
