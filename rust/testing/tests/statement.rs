//! Compares the library's statements with the reference's, and their lengths, which the
//! harness asks for with each: small and large books, every sort of account, buffers of
//! every length about the statement's, refused books. A locked book is lent where one is
//! wanted, and often where none is; `locked.rs` has the pairs of other sorts.
//!
//! 12 is never given. A line is a share of a pool, and an account's energy or a
//! factor is at most the whole that divides it, in size. Costs and payments are at
//! most 50,000,000,000, and so is price x RCR / 120, as the product is at most
//! 6,000,000,000,000; rounding does not pass a whole number.

use fervolatro_testing::books::{Encoded, Pair};
use fervolatro_testing::harness::report::shown;
use fervolatro_testing::harness::{
    asked_of, constraint_over, every_mask, Answer, Call, Family, Run, Units, Wanted, LIBRARY,
};
use fervolatro_testing::requests::accounts::{named_by, Holding};
use fervolatro_testing::requests::generate::{book_of_longest_statement, Sizes};
use fervolatro_testing::requests::halves;
use fervolatro_testing::requests::locked::set_kinds;
use fervolatro_testing::requests::worked::worked_book;
use fervolatro_testing::{reference, Books};

/// 24 + 24 x (3 x 600 units + 3 x 64 constraints + 10 x 16 contracts).
const LONGEST: usize = 51_672;

#[test]
fn library_and_reference_write_the_same() {
    let mut seen = Holding::ALL.map(|of| (account_with(of), 100)).to_vec();
    seen.extend(every_mask(constraint_over, 500));
    Run::over(&FAMILIES, LIBRARY, Units::Shared).finish(&Wanted {
        inputs: 75_000,
        answers: &[
            ("length", &TO_11),
            (
                "statement",
                &[0, 1, 2, 3, 4, 5, 6, 7, 8, 9, 10, 11, 13, 17, 18],
            ),
            ("whole statement", &TO_11),
        ],
        seen,
    });
}

/// What a call is answered by that has no buffer.
const TO_11: [usize; 14] = [0, 1, 2, 3, 4, 5, 6, 7, 8, 9, 10, 11, 17, 18];

const FAMILIES: [Family; 9] = [
    ("every account of small books", every_account),
    ("every length of buffer", every_length),
    ("an account in every region", every_region),
    ("halves", halves),
    ("amounts at their ends", ends),
    ("large books", large_books),
    ("longest statement", longest_statement),
    ("refused books", refused_books),
    ("turned bits", turned_bits),
];

fn account_with(holding: Holding) -> String {
    format!("account with {holding:?}")
}

/// Asks both for a statement in a buffer of so many bytes, and says whether it is
/// written.
fn compare(run: &mut Run, books: Books, account: u32, room: usize) -> bool {
    run.input();
    let call = Call::Statement { account, room };
    run.compare(call, books).is_ok()
}

/// The length of an account's statement; some other where it has none.
fn length_of(books: Books, account: u32) -> usize {
    reference::length(books, account).unwrap_or_else(|refusal| {
        assert_eq!(refusal.number, 11, "not accepted: {}", shown(books));
        312
    })
}

/// Compares an account of an accepted book: the statement by itself, in just enough
/// room, in one byte less, and in two other buffers.
fn compare_account(run: &mut Run, pair: &Pair, bytes: &Encoded, account: u32) {
    let books = Books::from(bytes);
    run.see(account_with(Holding::of(&pair.book, account)));
    let is_named = named_by(pair).contains(&account);
    let whole = run.compare(Call::WholeStatement { account }, books);
    assert_eq!(whole.is_ok(), is_named);
    if whole.is_ok() {
        run.see_masks(&pair.book);
    }
    let length = length_of(books, account);
    let rooms = [0, 1, 23, 24, 311, 312, length + 1, length + 24, 2 * length];
    for room in [
        length,
        length - 1,
        *run.random.pick(&rooms),
        run.random.below(2 * length),
    ] {
        let is_written = compare(run, books, account, room);
        let fits = is_named && room >= length;
        assert_eq!(is_written, fits, "account {account}, {}", shown(books));
    }
}

fn every_account(run: &mut Run) {
    for _ in 0..1_000 {
        let pair = run.accepted(Sizes::SMALL);
        let bytes = pair.encode();
        for account in asked_of(&pair) {
            compare_account(run, &pair, &bytes, account);
        }
    }
}

/// Every length from 0 to some bytes past the statement's.
fn every_length(run: &mut Run) {
    let mut pairs: Vec<Pair> = (0..40).map(|_| run.accepted(Sizes::SMALL)).collect();
    pairs.push(Pair::alone(worked_book()));
    for pair in pairs {
        let bytes = pair.encode();
        let books = Books::from(&bytes);
        let account = run.some_account(&pair);
        for room in 0..=length_of(books, account) + 30 {
            compare(run, books, account, room);
        }
    }
}

fn every_region(run: &mut Run) {
    for _ in 0..800 {
        let (pair, account) = run.in_every_region(Sizes::SMALL);
        compare_account(run, &pair, &pair.encode(), account);
    }
}

fn halves(run: &mut Run) {
    for _ in 0..2_500 {
        let pair = run.of_halves();
        for account in halves::ACCOUNTS {
            compare_account(run, &pair, &pair.encode(), account);
        }
    }
}

fn ends(run: &mut Run) {
    for _ in 0..1_500 {
        let pair = run.at_ends();
        let account = run.some_account(&pair);
        compare_account(run, &pair, &pair.encode(), account);
    }
}

fn large_books(run: &mut Run) {
    for round in 0..60 {
        let pair = run.large(round);
        let bytes = pair.encode();
        let first_units = pair.book.units.first().map(|row| row.account);
        let mut asked: Vec<u32> = first_units.into_iter().collect();
        asked.extend((0..4).map(|_| run.some_account(&pair)));
        for account in asked {
            compare_account(run, &pair, &bytes, account);
        }
    }
}

/// With contracts of either kind.
fn longest_statement(run: &mut Run) {
    for round in 0..20 {
        let (mut book, account) = book_of_longest_statement(&mut run.random);
        set_kinds(&mut book, 1 + round % 2);
        let pair = run.paired(book, Sizes::LARGEST);
        let bytes = pair.encode();
        run.input();
        let room = LONGEST;
        let given = run.compare(Call::Statement { account, room }, &bytes);
        assert_eq!(given, Ok(Answer::Length(LONGEST)));
        compare_account(run, &pair, &bytes, account);
    }
}

/// Compares a book that most likely is refused, also by itself.
fn compare_refused(run: &mut Run, books: Books, account: u32, room: usize) -> bool {
    let _ = run.compare(Call::WholeStatement { account }, books);
    compare(run, books, account, room)
}

/// Each fault in the first, the middle and the last record that can have it, and
/// books cut short.
fn refused_books(run: &mut Run) {
    run.each_fault(Sizes::SMALL, 10, |run, pair, books| {
        let account = run.some_account(pair);
        let room = run.some_room(books, account, 600);
        compare_refused(run, books, account, room);
    });
    let pair = run.accepted_of(Sizes::SMALL);
    let Encoded { book, locked } = pair.encode();
    for length in 0..book.len() {
        let account = run.some_account(&pair);
        let cut = Books::of(&book[..length], &locked);
        let is_written = compare_refused(run, cut, account, 1_000);
        assert!(!is_written, "{length} of {} bytes", book.len());
    }
}

fn turned_bits(run: &mut Run) {
    run.each_turned_book(8_000, |run, pair, books| {
        let account = run.some_account(pair);
        let room = run.some_room(books, account, 1_000);
        compare_refused(run, books, account, room);
    });
}
