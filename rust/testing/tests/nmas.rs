//! Compares the reconciliation files of the library and of the fast version with the
//! reference's: written from books of every sort, alone and with a locked one, for every
//! account and payment type, into buffers of every length; and read, good texts of any
//! rows and of written files, texts with one thing wrong, and noise. A run has to have
//! seen each sort, and each of the first lines refused.

use fervolatro_testing::books::{Books, Encoded, Pair};
use fervolatro_testing::harness::report::shown;
use fervolatro_testing::harness::{
    asked_of, Answer, Call, Family, File, Run, Side, Units, Wanted, FAST, LIBRARY,
};
use fervolatro_testing::reference::{self, nmas_row_of, read_nmas, spelled, whole_nmas};
use fervolatro_testing::requests::damage::sparse_noise;
use fervolatro_testing::requests::generate::{book_of_longest_statement, Sizes};
use fervolatro_testing::requests::nmas::{
    any_row, any_text, noise, Damage, HARMLESS, OF_BYTES, OF_FIELDS, RANGED,
};
use fervolatro_testing::{NmasRow, Refusal};

// Writing.

#[test]
fn library_and_reference_write_the_same() {
    let mut run = Run::over(&BOOKS, LIBRARY, Units::Either);
    run.enter("files without a buffer", whole_files);
    run.finish(&Wanted {
        inputs: 40_000,
        answers: &[
            ("file", WRITING),
            ("rows of a file", &[0]),
            ("row of a file", &[0, 15]),
            ("whole file", &[0, 11, 15, 17, 18]),
        ],
        seen: wanted_files(),
    });
}

#[test]
fn fast_and_reference_write_the_same() {
    Run::over(&BOOKS, FAST, Units::Either).finish(&Wanted {
        inputs: 38_000,
        answers: &[
            ("file", WRITING),
            ("rows of a file", &[0]),
            ("row of a file", &[0, 15]),
        ],
        seen: wanted_files(),
    });
}

/// What a file may be answered by: a statement's refusals, and 15. 12 cannot be.
const WRITING: &[usize] = &[0, 1, 2, 3, 4, 5, 6, 7, 8, 9, 10, 11, 13, 15, 17, 18];

const BOOKS: [Family; 11] = [
    ("small books", |run| accepted(run, 3_000, Sizes::SMALL)),
    ("medium books", |run| accepted(run, 500, Sizes::MEDIUM)),
    ("large books", large_books),
    ("halves", halves),
    ("amounts at their ends", ends),
    ("an account in every region", every_region),
    ("faults", |run| {
        run.each_fault(Sizes::SMALL, 20, compare_damaged)
    }),
    ("two faults", |run| run.each_two_faults(1, compare_damaged)),
    ("turned bits", |run| {
        run.each_turned_book(6_000, compare_damaged)
    }),
    ("books cut short", cut_short),
    ("no such payment type", other_types),
];

const EMPTY: &str = "file without a line";
const LONGEST: &str = "file of 80 lines";
const ORDINARY: &str = "book with a contract of kind 1";
const TEST: &str = "book with a contract of kind 2";
const EXACT: &str = "buffer of just the length";
const SHORT: &str = "buffer of a byte less";
const LONG: &str = "longer buffer";
const READ_BACK: &str = "file read back row by row";

fn of_type(payment_type: u64) -> String {
    format!("file of payment type {payment_type}")
}

fn wanted_files() -> Vec<(String, u64)> {
    let at_least = |fewest: u64| move |what: &str| (what.to_owned(), fewest);
    let mut wanted: Vec<(String, u64)> = [READ_BACK].map(at_least(20_000)).to_vec();
    wanted.extend([EXACT, SHORT, LONG].map(at_least(10_000)));
    wanted.extend([ORDINARY, TEST].map(at_least(1_500)));
    wanted.extend((0..3).map(|of| (of_type(of), 5_000)));
    wanted.push((EMPTY.to_owned(), 1_000));
    wanted.push((LONGEST.to_owned(), 10));
    wanted
}

/// Compares an account's file in just enough room, in a byte less, in some other length;
/// and reads back what was written.
fn compare_file<'b>(run: &mut Run, books: impl Into<Books<'b>>, account: u32) {
    run.input();
    let books = books.into();
    let payment_type = run.random.below(3) as u64;
    let file = File {
        account,
        payment_type,
    };
    let text = whole_nmas(books, account, payment_type);
    let length = text.as_ref().map_or(171, Vec::len);
    let any = run.random.below(length + 60);
    for room in [length, length.saturating_sub(1), any] {
        let _ = run.compare(Call::Nmas { file, room }, books);
    }
    if let Ok(text) = text {
        see_file(run, &text, payment_type, any);
        compare_read_back(run, &text);
    }
}

fn see_file(run: &mut Run, text: &[u8], payment_type: u64, room: usize) {
    run.see(of_type(payment_type));
    run.see(EXACT);
    if text.is_empty() {
        run.see(EMPTY);
    } else {
        run.see(SHORT);
    }
    if room > text.len() {
        run.see(LONG);
    }
}

/// Every row, one past the end, and a number whose lowest bits are a row's.
fn compare_read_back(run: &mut Run, text: &[u8]) {
    let rows = read_nmas(text);
    let count = rows.as_ref().map_or(0, Vec::len) as u64;
    assert!(rows.is_ok(), "not read back: {}", shown(text));
    run.expect(Call::NmasRows, text, Ok(Answer::Rows(count as usize)));
    for index in (0..=count).chain([1 << 32]) {
        expect_row(run, text, &rows, index);
    }
    if count == 80 {
        run.see(LONGEST);
    }
    run.see(READ_BACK);
}

fn expect_row(run: &mut Run, text: &[u8], rows: &Result<Vec<NmasRow>, Refusal>, index: u64) {
    let row = rows.as_ref().map_err(|&refusal| refusal);
    let row = row.and_then(|rows| nmas_row_of(rows, index));
    run.expect(Call::NmasRow { index }, text, row.map(Answer::Row));
}

/// Compares the files of every account of an accepted pair, of some where there are many.
fn compare_accepted(run: &mut Run, pair: &Pair) {
    let bytes = pair.encode();
    assert_eq!(reference::check(&bytes), Ok(()), "{}", shown(&bytes));
    for (kind, what) in [(1, ORDINARY), (2, TEST)] {
        if pair.book.contracts.iter().any(|of| of.kind == kind) {
            run.see(what);
        }
    }
    let accounts = asked_of(pair);
    let step = accounts.len().div_ceil(20);
    for &account in accounts.iter().step_by(step) {
        compare_file(run, &bytes, account);
    }
}

fn compare_damaged(run: &mut Run, pair: &Pair, books: Books) {
    let account = run.some_account(pair);
    compare_file(run, books, account);
}

fn accepted(run: &mut Run, times: usize, most: Sizes) {
    for _ in 0..times {
        let pair = run.accepted(most);
        compare_accepted(run, &pair);
    }
}

/// Also those with the longest statement, which have 16 contracts over all five regions.
fn large_books(run: &mut Run) {
    for round in 0..12 {
        let pair = run.large(round);
        compare_accepted(run, &pair);
        let (book, account) = book_of_longest_statement(&mut run.random);
        let bytes = book.encode();
        compare_file(run, &bytes, account);
        compare_file(run, &bytes, 9);
    }
}

fn halves(run: &mut Run) {
    for _ in 0..500 {
        let pair = run.of_halves();
        compare_accepted(run, &pair);
    }
}

fn ends(run: &mut Run) {
    for _ in 0..500 {
        let pair = run.at_ends();
        compare_accepted(run, &pair);
    }
}

fn every_region(run: &mut Run) {
    for _ in 0..500 {
        let (pair, account) = run.in_every_region(Sizes::SMALL);
        compare_file(run, &pair.encode(), account);
    }
}

fn cut_short(run: &mut Run) {
    for _ in 0..5 {
        let pair = run.accepted(Sizes::SMALL);
        let Encoded { book, locked } = run.lent(&pair);
        for length in 0..book.len() {
            compare_damaged(run, &pair, Books::of(&book[..length], &locked));
        }
    }
}

/// 15 comes before all else, whatever the book, the account and the room are.
fn other_types(run: &mut Run) {
    for payment_type in [3, 4, 255, 256, (1 << 32) + 1, u64::MAX].repeat(100) {
        run.input();
        let pair = run.accepted(Sizes::SMALL);
        let bytes = run.lent(&pair);
        let file = File {
            account: run.some_account(&pair),
            payment_type,
        };
        let end = run.random.below(bytes.book.len() + 1);
        for book in [&bytes.book[..], &bytes.book[..end]] {
            let room = run.random.below(300);
            let given = run.compare(Call::Nmas { file, room }, Books::of(book, &bytes.locked));
            assert_eq!(given.map_err(|no| (no.number, no.place)), Err((15, 0)));
        }
    }
}

/// The call that lends a buffer by itself.
fn whole_files(run: &mut Run) {
    for round in 0..2_000 {
        run.input();
        let pair = run.accepted(Sizes::SMALL);
        let bytes = run.lent(&pair);
        let file = File {
            account: run.some_account(&pair),
            payment_type: round % 4,
        };
        let _ = run.compare(Call::WholeNmas { file }, &bytes);
    }
}

// Reading.

#[test]
fn library_and_reference_read_the_same() {
    read_the_same(LIBRARY);
}

#[test]
fn fast_and_reference_read_the_same() {
    read_the_same(FAST);
}

fn read_the_same(tested: Side) {
    Run::over(&TEXTS, tested, Units::Either).finish(&Wanted {
        inputs: 200_000,
        answers: &[
            ("rows of a file", &[0, 19]),
            ("row of a file", &[0, 15, 19]),
        ],
        seen: wanted_texts(),
    });
}

const TEXTS: [Family; 9] = [
    ("good texts", good_texts),
    ("long texts", long_texts),
    ("lines in other places", |run| {
        damaged(run, &HARMLESS, 2_000)
    }),
    ("bytes that differ", |run| damaged(run, &OF_BYTES, 14_000)),
    ("fields that differ", |run| damaged(run, &OF_FIELDS, 7_000)),
    ("written files that differ", written_files),
    ("ends of ranges", ranges),
    ("every length", every_length),
    ("noise", noises),
];

/// Texts of random rows have up to so many, and up to so many lines are counted.
const MOST: usize = 12;
const COUNTED: usize = 12;

const GOOD: &str = "text that is read";
const NONE: &str = "text without a line";
const TWICE: &str = "text changed twice";

fn refused_at(line: usize) -> String {
    match line {
        COUNTED.. => "refused at a later line".to_owned(),
        _ => format!("refused at line {line:2}"),
    }
}

fn refused_last(line: usize) -> String {
    refused_at(line) + ", the last"
}

fn outside(field: &str) -> String {
    format!("out of range: {field}")
}

fn still_good(damage: &Damage) -> String {
    format!("{}, and still read", damage.name)
}

fn refused_by(damage: &Damage) -> String {
    format!("{}, and refused", damage.name)
}

fn wanted_texts() -> Vec<(String, u64)> {
    let mut wanted = vec![(GOOD.to_owned(), 30_000), (NONE.to_owned(), 500)];
    wanted.push((TWICE.to_owned(), 10_000));
    wanted.extend((0..COUNTED).map(|line| (refused_at(line), 500)));
    wanted.extend((0..COUNTED).map(|line| (refused_last(line), 500)));
    wanted.push((refused_at(COUNTED), 20));
    wanted.extend(RANGED.iter().map(|field| (outside(field.name), 1_000)));
    wanted.extend(HARMLESS.iter().map(|of| (still_good(of), 2_000)));
    let others = || OF_BYTES.iter().chain(&OF_FIELDS);
    wanted.extend(others().map(|of| (refused_by(of), 500)));
    wanted
}

/// Compares how many rows a text has, a row that is drawn, and one past the end. Gives
/// whether it was read.
fn compare_text(run: &mut Run, text: &[u8]) -> bool {
    run.input();
    let rows = read_nmas(text);
    let count = rows.as_ref().map(Vec::len);
    run.expect(
        Call::NmasRows,
        text,
        count.map(Answer::Rows).map_err(|&no| no),
    );
    let lines = text.split_inclusive(|&byte| byte == b'\n').count();
    let drawn = run.random.below(lines + 1) as u64;
    let far = *run.random.pick(&[lines as u64 + 1, 1 << 32, u64::MAX]);
    for index in [drawn, lines as u64, far] {
        expect_row(run, text, &rows, index);
    }
    see_text(run, lines, rows.as_ref().map(Vec::len));
    rows.is_ok()
}

fn see_text(run: &mut Run, lines: usize, rows: Result<usize, &Refusal>) {
    match rows {
        Ok(0) => run.see(NONE),
        Ok(_) => run.see(GOOD),
        Err(Refusal { place, .. }) => {
            run.see(refused_at(*place));
            if place + 1 == lines {
                run.see(refused_last(*place));
            }
        }
    }
}

fn some_text(run: &mut Run) -> Vec<u8> {
    let rows = 1 + run.random.below(MOST);
    any_text(&mut run.random, rows)
}

fn good_texts(run: &mut Run) {
    for _ in 0..15_000 {
        let rows = run.random.below(MOST + 1);
        let text = any_text(&mut run.random, rows);
        assert!(compare_text(run, &text), "{}", shown(&text));
    }
}

/// Of as many lines as a file can have, and of more.
fn long_texts(run: &mut Run) {
    for rows in [79, 80, 81, 256, 300].repeat(6) {
        let mut text = any_text(&mut run.random, rows);
        assert!(compare_text(run, &text), "{}", shown(&text));
        (run.random.pick(&OF_BYTES).apply)(&mut run.random, &mut text);
        compare_text(run, &text);
    }
}

/// Each of the changes so many times, at times with another one after it.
fn damaged(run: &mut Run, damages: &[Damage], times: usize) {
    for damage in damages {
        for _ in 0..times {
            let mut text = some_text(run);
            compare_change(run, &mut text, damage);
            if text.len() > 1 && run.random.below(4) == 0 {
                (run.random.pick(&OF_BYTES).apply)(&mut run.random, &mut text);
                run.see(TWICE);
                compare_text(run, &text);
            }
        }
    }
}

fn compare_change(run: &mut Run, text: &mut Vec<u8>, damage: &Damage) {
    (damage.apply)(&mut run.random, text);
    let is_read = compare_text(run, text);
    run.see(match is_read {
        true => still_good(damage),
        false => refused_by(damage),
    });
}

/// Files as they are written, with a change each.
fn written_files(run: &mut Run) {
    for _ in 0..3_000 {
        let pair = run.accepted(Sizes::SMALL);
        let account = run.some_account(&pair);
        let payment_type = run.random.below(3) as u64;
        let Ok(text) = whole_nmas(&pair.encode(), account, payment_type) else {
            continue;
        };
        if text.is_empty() {
            continue;
        }
        for damages in [&HARMLESS[..], &OF_BYTES, &OF_FIELDS] {
            let damage = run.random.pick(damages);
            compare_change(run, &mut text.clone(), damage);
        }
    }
}

/// Each number at both ends of its range and beside them, in any of the lines; and
/// RECOVERY_AMOUNT beside the sum.
fn ranges(run: &mut Run) {
    const BESIDE: [i64; 4] = [-1, 1, 10_000, 1 << 40];
    for _ in 0..300 {
        for field in &RANGED {
            for value in field.values() {
                let is_read = compare_row(run, |row| (field.set)(row, value));
                if !is_read {
                    run.see(outside(field.name));
                }
            }
        }
        for step in BESIDE {
            assert!(!compare_row(run, |row| row.recovery += step), "{step}");
        }
    }
}

/// Compares a text with a changed row in one of its lines, and tells whether it was read.
fn compare_row(run: &mut Run, change: impl Fn(&mut NmasRow)) -> bool {
    let mut row = any_row(&mut run.random);
    change(&mut row);
    let [before, behind] = [0; 2].map(|_: i32| {
        let rows = run.random.below(3);
        any_text(&mut run.random, rows)
    });
    let text = [before, spelled(&row).into_bytes(), behind].concat();
    compare_text(run, &text)
}

fn every_length(run: &mut Run) {
    for rows in [1, 2, 3, 4].repeat(5) {
        let text = any_text(&mut run.random, rows);
        for length in 0..=text.len() {
            let is_end = text[..length].last().is_none_or(|&byte| byte == b'\n');
            assert_eq!(compare_text(run, &text[..length]), is_end, "{length}");
        }
    }
}

fn noises(run: &mut Run) {
    let mut bytes = [0; 400];
    for _ in 0..5_000 {
        let text = noise(&mut run.random);
        compare_text(run, &text);
        let length = run.random.below(bytes.len() + 1);
        sparse_noise(&mut run.random, &mut bytes[..length]);
        compare_text(run, &bytes[..length]);
    }
}
