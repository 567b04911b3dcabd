//! An account's statement tells nothing about its neighbours, nor does its length, nor its
//! reconciliation file: in books that agree in what is public and in the account's own
//! rows, and differ in all the rest, the library answers the same length and writes the
//! same bytes. Where the
//! locked book is read, its region totals and the account's rows in it agree, and nothing
//! else of it has to; where it is not, any bytes stand in its place.

use fervolatro_testing::book::Book;
use fervolatro_testing::books::{has_test, Encoded, Pair};
use fervolatro_testing::harness::lent::Lent;
use fervolatro_testing::harness::report::shown;
use fervolatro_testing::harness::{Family, Run, Units, Wanted, LIBRARY};
use fervolatro_testing::requests::accounts::spread;
use fervolatro_testing::requests::damage::sparse_noise;
use fervolatro_testing::requests::generate::Sizes;
use fervolatro_testing::requests::neighbours::{agree_for, Change, CHANGES, LOCKED_CHANGES};
use fervolatro_testing::{library, reference, Books, Refusal};

const OTHER_COUNTS: &str = "other numbers of rows";
const OTHER_LOCKED: &str = "another locked book that is read";
const UNREAD: &str = "other bytes that are not read";
const LINES: &str = "file with lines";

#[test]
fn statements_do_not_show_neighbours() {
    let mut seen: Vec<(String, u64)> = [0, 11, 13].map(|of| (answer(of), 1_000)).to_vec();
    seen.extend([0, 11].map(|of| (length_answer(of), 1_000)));
    seen.extend([0, 11, 13].map(|of| (file_answer(of), 1_000)));
    seen.push((LINES.to_owned(), 10_000));
    seen.extend(CHANGES.map(|change| (change.name.to_owned(), 100)));
    let of_locked = CHANGES.iter().chain(&LOCKED_CHANGES);
    seen.extend(of_locked.map(|change| (of_the_locked(change), 100)));
    seen.push((OTHER_COUNTS.to_owned(), 10_000));
    seen.extend([OTHER_LOCKED, UNREAD].map(|what| (what.to_owned(), 5_000)));
    Run::over(&FAMILIES, LIBRARY, Units::Shared).finish(&Wanted {
        inputs: 24_300,
        answers: &[],
        seen,
    });
}

const FAMILIES: [Family; 3] = [
    ("small books", |run| {
        compare_pairs(run, 14_000, Sizes::SMALL)
    }),
    ("medium books", |run| {
        compare_pairs(run, 10_000, Sizes::MEDIUM)
    }),
    ("large books", |run| compare_pairs(run, 300, Sizes::LARGEST)),
];

fn answer(number: u8) -> String {
    format!("answer {number:2}")
}

fn length_answer(number: u8) -> String {
    format!("length, answer {number:2}")
}

fn file_answer(number: u8) -> String {
    format!("file, answer {number:2}")
}

fn compare_pairs(run: &mut Run, pairs: usize, most: Sizes) {
    for _ in 0..pairs {
        compare_pair(run, most);
    }
}

/// Draws a book and an account, changes the account's neighbours, and compares the
/// lengths that the library answers and what it writes.
fn compare_pair(run: &mut Run, most: Sizes) {
    let (books, account) = books_and_account(run, most);
    let changed = changed(run, &books, account);
    let mut pair = [books.encode(), changed.encode()];
    if !has_test(&books.book) {
        pair[1].locked = noise(run);
    }
    assert_right_pair(&books, &changed, account, &pair);

    run.input();
    see(run, &books, &pair);
    compare_lengths(run, &pair, account);
    compare_statements(run, &pair, account);
    compare_files(run, &pair, account);
}

/// Counts in what the two differ.
fn see(run: &mut Run, books: &Pair, pair: &[Encoded; 2]) {
    if pair[0].book.len() != pair[1].book.len() {
        run.see(OTHER_COUNTS);
    }
    if pair[0].locked != pair[1].locked {
        let is_read = has_test(&books.book);
        run.see(if is_read { OTHER_LOCKED } else { UNREAD });
    }
}

/// Any bytes, also none.
fn noise(run: &mut Run) -> Vec<u8> {
    let mut bytes = vec![0; run.random.below(300)];
    sparse_noise(&mut run.random, &mut bytes);
    bytes
}

/// The lengths have to be the same, refusals too.
fn compare_lengths(run: &mut Run, pair: &[Encoded; 2], account: u32) {
    let [first, second] = pair.each_ref().map(|bytes| library::length(bytes, account));
    assert!(
        first == second,
        "{}: lengths {first:?} and {second:?}; account {account}, {} and {}",
        run.place(),
        shown(&pair[0]),
        shown(&pair[1])
    );
    run.see(length_answer(number(first)));
}

/// So have the statements, and every byte of the buffers.
fn compare_statements(run: &mut Run, pair: &[Encoded; 2], account: u32) {
    let length = reference::length(&pair[0], account).unwrap_or(312);
    let room = room(run, length);
    let given = compare_written(run, pair, room, |books, buffer| {
        library::statement(books, account, buffer)
    });
    run.see(answer(number(given)));
}

/// So have the files, and every byte of the buffers.
fn compare_files(run: &mut Run, pair: &[Encoded; 2], account: u32) {
    let payment_type = run.random.below(3) as u64;
    let text = reference::whole_nmas(&pair[0], account, payment_type);
    let length = text.map_or(171, |text| text.len());
    let room = room(run, length);
    let given = compare_written(run, pair, room, |books, buffer| {
        library::nmas(books, account, payment_type, buffer)
    });
    run.see(file_answer(number(given)));
    if given.is_ok_and(|length| length > 0) {
        run.see(LINES);
    }
}

/// Has both written into a buffer of that length, and gives the answer.
fn compare_written(
    run: &mut Run,
    pair: &[Encoded; 2],
    room: usize,
    write: impl Fn(Books, &mut [u8]) -> Result<usize, Refusal>,
) -> Result<usize, Refusal> {
    let start = run.random.bits() as u8;
    let [first, second] = pair.each_ref().map(|bytes| {
        let mut lent = Lent::new(room, start);
        (write(Books::from(bytes), lent.buffer()), lent)
    });
    assert!(
        first == second,
        "{}: {:?} and {:?}, first different byte {:?}; room {room}, {} and {}",
        run.place(),
        first.0,
        second.0,
        first.1.first_difference(&second.1),
        shown(&pair[0]),
        shown(&pair[1])
    );
    first.0
}

/// An accepted book, the locked one, and an account, most often one that they have, at
/// times one with energy in every region of either.
fn books_and_account(run: &mut Run, most: Sizes) -> (Pair, u32) {
    let mut pair = run.accepted(most);
    let account = run.some_account(&pair);
    for book in [Some(&mut pair.book), pair.locked.as_mut()] {
        let is_spread = account != 0 && run.random.below(4) == 0;
        if let Some(book) = book.filter(|book| is_spread && book.energies.len() < 1_000) {
            spread(&mut run.random, book, account);
        }
    }
    (pair, account)
}

fn of_the_locked(change: &Change) -> String {
    format!("locked: {}", change.name)
}

/// The books after one to four changes that made a difference, of the locked one too where
/// it is read.
fn changed(run: &mut Run, books: &Pair, account: u32) -> Pair {
    let mut changed = books.clone();
    let mut wanted = run.random.between(1, 4);
    while wanted > 0 || changed == *books {
        let is_locked = has_test(&books.book) && run.random.coin();
        match changed.locked.as_mut().filter(|_| is_locked) {
            Some(locked) => {
                let changes = [&CHANGES[..], &LOCKED_CHANGES].concat();
                change_some(run, locked, account, &changes).map(|of| run.see(of_the_locked(&of)))
            }
            None => {
                let change = change_some(run, &mut changed.book, account, &CHANGES);
                change.map(|of| run.see(of.name))
            }
        };
        wanted -= 1;
    }
    changed
}

/// Makes one of the changes, and gives it if it made a difference.
fn change_some(run: &mut Run, book: &mut Book, account: u32, changes: &[Change]) -> Option<Change> {
    let before = book.clone();
    let chosen = *run.random.pick(changes);
    (chosen.apply)(&mut run.random, book, account);
    (*book != before).then_some(chosen)
}

/// The two pairs are what this test is about: both accepted, different, and the same to
/// the account.
fn assert_right_pair(books: &Pair, changed: &Pair, account: u32, pair: &[Encoded; 2]) {
    assert!(agree_for(account, books, changed), "account {account}");
    assert_ne!(pair[0], pair[1]);
    for bytes in pair {
        assert_eq!(reference::check(bytes), Ok(()), "{}", shown(bytes));
    }
}

/// Room for so many bytes, now and then too little, at times by one byte.
fn room(run: &mut Run, length: usize) -> usize {
    match run.random.below(8) {
        0 => run.random.below(length.max(1)),
        1 => length.saturating_sub(1),
        2 => length,
        _ => length + run.random.below(100),
    }
}

fn number(answer: Result<usize, Refusal>) -> u8 {
    answer.map_or_else(|refusal| refusal.number, |_| 0)
}
