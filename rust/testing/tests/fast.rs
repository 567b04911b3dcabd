//! Compares the fast version, which the benchmark holds the library against, with
//! the reference: checks, statements, their lengths and balances of accepted books of
//! every size, of books with faults, fields at their edges and turned bits, each with a
//! locked book; and all lines of statements, of any bytes. The library is not asked.
//! `locked.rs` compares the two on more pairs of books.

use fervolatro_testing::book::Sections;
use fervolatro_testing::books::{Encoded, Pair};
use fervolatro_testing::harness::{Answer, Call, Family, Run, Units, Wanted, FAST};
use fervolatro_testing::reference;
use fervolatro_testing::requests::accounts::named_by;
use fervolatro_testing::requests::edges;
use fervolatro_testing::requests::faults::Spot;
use fervolatro_testing::requests::generate::{
    book_of_longest_statement, set_amounts_to_ends, Sizes,
};
use fervolatro_testing::requests::statements::{any_statement, statement_of_every_part};
use fervolatro_testing::requests::worked::{
    empty_book, empty_statement, worked_book, worked_statement,
};
use fervolatro_testing::Books;

#[test]
fn fast_and_reference_agree() {
    Run::over(&BOOKS, FAST, Units::Either).finish(&Wanted {
        inputs: 105_000,
        answers: &[
            ("check", &[0, 1, 2, 3, 4, 5, 6, 7, 8, 9, 10, 17, 18]),
            ("length", &[0, 1, 2, 3, 4, 5, 6, 7, 8, 9, 10, 11, 17, 18]),
            (
                "statement",
                &[0, 1, 2, 3, 4, 5, 6, 7, 8, 9, 10, 11, 13, 17, 18],
            ),
            ("balance", &[0, 1, 2, 3, 4, 5, 6, 7, 8, 9, 10, 15, 17, 18]),
        ],
        seen: Vec::new(),
    });
}

#[test]
fn fast_and_reference_read_the_same_lines() {
    Run::over(&STATEMENTS, FAST, Units::Either).finish(&Wanted {
        inputs: 65_000,
        answers: &[("unpack", &[0, 13, 14])],
        seen: Vec::new(),
    });
}

const BOOKS: [Family; 7] = [
    ("accepted books", accepted_books),
    ("large books", large_books),
    ("dates and lengths", dates_and_lengths),
    ("field edges", field_edges),
    ("single faults", |run| {
        run.each_fault(Sizes::MEDIUM, 40, compare_damaged)
    }),
    ("two faults", |run| run.each_two_faults(4, compare_damaged)),
    ("turned bits", |run| {
        run.each_turned_book(10_000, compare_damaged)
    }),
];

const STATEMENTS: [Family; 3] = [
    ("every length and bit", every_length_and_bit),
    ("statement edges", statement_edges),
    ("long statements", long_statements),
];

/// Compares the check, a statement in some buffer, and a balance.
fn compare<'b>(run: &mut Run, books: impl Into<Books<'b>>, account: u32) {
    run.input();
    let books = books.into();
    let room = run.some_room(books, account, 1_000);
    let pool = *run.random.pick(&[0, 1, 4, u64::MAX]);
    for call in [
        Call::Check,
        Call::Statement { account, room },
        Call::Balance { pool },
    ] {
        let _ = run.compare(call, books);
    }
}

fn compare_damaged(run: &mut Run, pair: &Pair, books: Books) {
    let account = run.some_account(pair);
    compare(run, books, account);
}

/// Compares the statements of these accounts and all balances of an accepted book.
fn compare_accepted(run: &mut Run, pair: &Pair, accounts: &[u32]) {
    run.input();
    let bytes = pair.encode();
    assert_eq!(run.compare(Call::Check, &bytes), Ok(Answer::Nothing));
    for &account in accounts {
        let length = reference::length(&bytes, account).unwrap_or(300);
        for room in [length, length - 1, length + 30] {
            let _ = run.compare(Call::Statement { account, room }, &bytes);
        }
    }
    let balances = reference::balances(&bytes).expect("it is accepted");
    for pool in (0..=balances.count()).chain([u64::MAX]) {
        let balance = balances.of(pool).map(Answer::Balance);
        run.expect(Call::Balance { pool }, &bytes, balance);
    }
}

fn accepted_books(run: &mut Run) {
    let mut pairs = [empty_book(), worked_book()].map(Pair::alone).to_vec();
    pairs.extend((0..6_000).map(|_| run.accepted(Sizes::SMALL)));
    pairs.extend((0..1_000).map(|_| run.accepted(Sizes::MEDIUM)));
    pairs.extend((0..1_000).map(|_| run.of_halves()));
    for mut pair in pairs {
        if run.random.below(4) == 0 {
            set_amounts_to_ends(&mut run.random, &mut pair.book);
        }
        let mut accounts = named_by(&pair);
        accounts.extend([0, run.some_account(&pair), u32::MAX]);
        compare_accepted(run, &pair, &accounts);
    }
}

fn large_books(run: &mut Run) {
    let (longest, account) = book_of_longest_statement(&mut run.random);
    compare_accepted(run, &Pair::alone(longest), &[account, 9]);
    for _ in 0..12 {
        let pair = run.accepted(Sizes::LARGEST);
        let accounts = [0; 4].map(|_| run.some_account(&pair));
        compare_accepted(run, &pair, &accounts);
    }
}

/// Every day of some years, and days and months that there are not; every length.
fn dates_and_lengths(run: &mut Run) {
    let mut book = empty_book();
    for year in (2024..=2029).chain(2095..=2101) {
        for month in 0..=13 {
            for day in 0..=32 {
                book.header.date = year * 10_000 + month * 100 + day;
                compare(run, &book.encode(), 7);
            }
        }
    }
    let mut bytes = worked_book().encode();
    bytes.extend([0; 40]);
    for length in 0..bytes.len() {
        compare(run, &bytes[..length], 7);
    }
}

/// Every field of the header and of the first and the last record of each kind, just
/// inside and just past both ends of its range.
fn field_edges(run: &mut Run) {
    for _ in 0..70 {
        let pair = run.accepted(Sizes::SMALL);
        let Encoded { mut book, locked } = run.lent(&pair);
        edges::each(&mut book, 0, edges::HEADER, |book| {
            compare_damaged(run, &pair, Books::of(book, &locked));
        });
        for (section, fields) in edges::by_section(&Sections::of(&pair.book.counted_header())) {
            for spot in [Spot::First, Spot::Last] {
                if let Some(index) = spot.index(section.count) {
                    edges::each(&mut book, section.offset(index), fields, |book| {
                        compare_damaged(run, &pair, Books::of(book, &locked));
                    });
                }
            }
        }
    }
}

/// Compares all lines in just enough room, in one line's less, and in some more.
fn compare_lines(run: &mut Run, bytes: &[u8]) {
    run.input();
    let lines = (bytes.len() / 24).saturating_sub(1);
    let more = lines + run.random.below(3);
    for room in [lines, lines.saturating_sub(1), more] {
        let _ = run.compare(Call::Unpack { room: 40 * room }, bytes);
    }
}

fn every_length_and_bit(run: &mut Run) {
    let every_part = statement_of_every_part(&mut run.random);
    for statement in [empty_statement(), worked_statement(), every_part] {
        let mut bytes = statement.encode();
        let bits = 0..8 * bytes.len();
        run.each_turned_bit(&mut bytes, bits, compare_lines);
        bytes.extend([0; 48]);
        for length in 0..=bytes.len() {
            compare_lines(run, &bytes[..length]);
        }
    }
}

/// Every field of the header and of each line, just inside and just past both ends of
/// its range.
fn statement_edges(run: &mut Run) {
    for _ in 0..40 {
        let mut bytes = statement_of_every_part(&mut run.random).encode();
        edges::each(&mut bytes, 0, edges::STATEMENT_HEADER, |bytes| {
            compare_lines(run, bytes);
        });
        for line in 1..=10 {
            edges::each(&mut bytes, 24 * line, edges::LINE, |bytes| {
                compare_lines(run, bytes);
            });
        }
    }
}

/// Any lines, as many as there can be and more, and one bit of them turned.
fn long_statements(run: &mut Run) {
    for lines in [0, 1, 2, 100, 1_000, 2_151, 2_152, 2_153, 8_192] {
        for _ in 0..20 {
            let mut bytes = any_statement(&mut run.random, lines).encode();
            compare_lines(run, &bytes);
            let bits = run.bits_of(&bytes, 1);
            run.each_turned_bit(&mut bytes, bits, compare_lines);
        }
    }
}
