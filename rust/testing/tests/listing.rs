//! Runs the listing program and compares what it prints with the reference's
//! listing, byte by byte: accounts of books of every size, accounts that no row
//! names, every sort of refusal, short input and long. It lends no locked book: one with a
//! contract of kind 2 is refused, so that most books here have none. The environment
//! variable
//! FERVOLATRO_LISTING names another program to be run in the place of
//! `crates/listing/out/listing`.
//!
//! 12 is never given (see `statement.rs`), nor 13: the program lends itself as much room
//! as the statement's length, which it asks for first.

use std::env;
use std::io::{ErrorKind, Write as _};
use std::process::{Command, Output, Stdio};
use std::thread;

use fervolatro_testing::book::Book;
use fervolatro_testing::books::Pair;
use fervolatro_testing::harness::report::shown;
use fervolatro_testing::harness::{asked_of, Run, Units, Wanted, LIBRARY};
use fervolatro_testing::requests::damage::sparse_noise;
use fervolatro_testing::requests::edges;
use fervolatro_testing::requests::generate::{
    book_of_longest_statement, set_amounts_to_ends, Sizes,
};
use fervolatro_testing::requests::halves;
use fervolatro_testing::requests::locked::set_kinds;
use fervolatro_testing::requests::worked::{empty_book, worked_book};
use fervolatro_testing::{in_repository, reference};

/// What the program reads at most; the rest of longer input it leaves.
const MOST_READ: usize = 65_536;

/// Each kind of run, and how many of it there are at least.
const FEWEST_OF_KIND: [(Kind, u64); 19] = [
    (Kind::Short, 20),
    (Kind::Long, 20),
    (Kind::Listed, 800),
    (Kind::LongestStatement, 4),
    (Kind::LargestBook, 20),
    (Kind::NoLines, 5),
    (Kind::Refused(1), 50),
    (Kind::Refused(2), 50),
    (Kind::Refused(3), 30),
    (Kind::Refused(4), 100),
    (Kind::Refused(5), 50),
    (Kind::Refused(6), 20),
    (Kind::Refused(7), 10),
    (Kind::Refused(8), 30),
    (Kind::Refused(9), 50),
    (Kind::Refused(10), 10),
    (Kind::Refused(11), 50),
    (Kind::Refused(17), 100),
    (Kind::Negative, 200),
];

#[test]
fn program_and_reference_print_the_same() {
    let mut run = Run::new(LIBRARY, Units::Shared);
    let mut inputs = Vec::new();
    for (family, make) in FAMILIES {
        run.enter(family, |run| {
            make(run, &mut |run, bytes| {
                run.input();
                inputs.push(Input { family, bytes });
            });
        });
    }
    let kinds = run_all(&inputs, run.seed());
    let never = [12, 13, 18].map(Kind::Refused);
    assert!(!kinds.iter().any(|kind| never.contains(kind)), "{never:?}");
    for kind in kinds {
        run.see(format!("{kind:?}"));
    }
    let seen = FEWEST_OF_KIND.map(|(kind, fewest)| (format!("{kind:?}"), fewest));
    run.finish(&Wanted {
        inputs: 2_400,
        answers: &[],
        seen: seen.to_vec(),
    });
}

/// What sort of run it was. A run can be of several.
#[derive(Clone, Copy, Debug, PartialEq, Eq)]
enum Kind {
    /// Fewer bytes than an account has.
    Short,
    /// More bytes than the program reads.
    Long,
    /// A statement with lines was listed.
    Listed,
    /// The longest statement there is was, of 2,152 lines.
    LongestStatement,
    /// A statement of the largest book was.
    LargestBook,
    /// A statement without lines was listed.
    NoLines,
    /// An amount below 0 was listed.
    Negative,
    Refused(u8),
}

/// The kinds of an input, by what the reference prints for it.
fn kinds_of(input: &[u8], printed: &str) -> Vec<Kind> {
    let lines = printed.lines().count() - 1;
    let refused = printed.strip_prefix("refused ");
    let number = refused.and_then(|rest| rest.split(' ').next());
    let number = number.map(|digits| digits.parse().expect("a refusal has a number"));
    let given = [
        (Kind::Short, input.len() < 4),
        (Kind::Long, input.len() > MOST_READ),
        (Kind::Listed, lines > 0),
        (Kind::LongestStatement, lines == 2_152),
        (Kind::LargestBook, lines > 0 && input.len() == 4 + 39_796),
        (Kind::NoLines, lines == 0 && number.is_none()),
        (Kind::Negative, printed.contains(" -")),
    ];
    let given = given
        .into_iter()
        .filter_map(|(kind, is)| is.then_some(kind));
    given.chain(number.map(Kind::Refused)).collect()
}

/// An input of the program, and the sort of inputs that it is one of.
struct Input {
    family: &'static str,
    bytes: Vec<u8>,
}

/// Runs the program on all inputs, spread over threads, and gives the kinds of each.
fn run_all(inputs: &[Input], seed: u64) -> Vec<Kind> {
    let threads = thread::available_parallelism().map_or(2, |cores| 2 * cores.get());
    let share = inputs.len().div_ceil(threads);
    thread::scope(|scope| {
        let running: Vec<_> = inputs
            .chunks(share)
            .map(|inputs| scope.spawn(move || run_some(inputs, seed)))
            .collect();
        let kinds = running.into_iter().map(|thread| thread.join());
        kinds
            .flat_map(|kinds| kinds.expect("the listings are the same"))
            .collect()
    })
}

fn run_some(inputs: &[Input], seed: u64) -> Vec<Kind> {
    let each = inputs.iter().flat_map(|input| compare(input, seed));
    each.collect()
}

/// Asks both for a listing. The program ends well whatever it prints, and says
/// nothing else.
fn compare(input: &Input, seed: u64) -> Vec<Kind> {
    let expected = reference::listing(&input.bytes);
    let Output {
        status,
        stdout,
        stderr,
    } = run(&input.bytes);
    assert!(
        stdout == expected.as_bytes(),
        "seed {seed} ({}): {}, expected\n{expected}, printed\n{}, input {}",
        input.family,
        first_difference(&stdout, expected.as_bytes()),
        String::from_utf8_lossy(&stdout),
        shown(&input.bytes)
    );
    let said = String::from_utf8_lossy(&stderr);
    assert!(
        status.code() == Some(0) && said.is_empty(),
        "seed {seed} ({}): {status}, {said:?}, input {}",
        input.family,
        shown(&input.bytes)
    );
    kinds_of(&input.bytes, &expected)
}

fn first_difference(printed: &[u8], expected: &[u8]) -> String {
    let same = printed.iter().zip(expected).take_while(|(a, b)| a == b);
    format!("different from byte {} on", same.count())
}

fn run(input: &[u8]) -> Output {
    let mut child = program()
        .stdin(Stdio::piped())
        .stdout(Stdio::piped())
        .stderr(Stdio::piped())
        .spawn()
        .expect("the listing program is built by `rt run` in crates/listing");
    let mut stdin = child.stdin.take().expect("it was piped");
    // It reads all that it ever reads before it prints, so neither waits for the other.
    if let Err(error) = stdin.write_all(input) {
        let is_left = input.len() > MOST_READ && error.kind() == ErrorKind::BrokenPipe;
        assert!(is_left, "the program does not read its input: {error}");
    }
    drop(stdin);
    child.wait_with_output().expect("the program ends")
}

/// The program itself where the machine runs x86-64 code, else in the emulator.
fn program() -> Command {
    if let Some(program) = env::var_os("FERVOLATRO_LISTING") {
        return Command::new(program);
    }
    let listing = in_repository("crates/listing/out/listing");
    if cfg!(target_arch = "x86_64") {
        return Command::new(listing);
    }
    let mut command = Command::new(in_repository("tests/x86"));
    command.arg("run").arg(listing);
    command
}

/// Takes an input as it is made.
type Add<'a> = dyn FnMut(&mut Run, Vec<u8>) + 'a;

/// Inputs of one sort: their name, and what makes them.
type Family = (&'static str, fn(&mut Run, &mut Add));

const FAMILIES: [Family; 14] = [
    ("short input", short_input),
    ("the worked book", worked),
    ("every account of small books", every_account),
    ("an account in every region", every_region),
    ("halves", halves),
    ("amounts at their ends", ends),
    ("medium books", medium_books),
    ("large books", large_books),
    ("longest statement", longest_statement),
    ("header edges", header_edges),
    ("single faults", single_faults),
    ("truncations", truncations),
    ("damage", damage),
    ("long input", long_input),
];

/// An account, and a book behind it.
fn asked(account: u32, book: &[u8]) -> Vec<u8> {
    [&account.to_le_bytes(), book].concat()
}

/// The book by itself. Now and then it keeps its contracts of kind 2, for which it is
/// refused.
fn alone(run: &mut Run, pair: Pair) -> Pair {
    let mut book = pair.book;
    if run.random.below(5) != 0 {
        set_kinds(&mut book, 1);
    }
    Pair::alone(book)
}

/// One with up to so many records of each kind.
fn accepted(run: &mut Run, most: Sizes) -> Pair {
    let pair = run.accepted(most);
    alone(run, pair)
}

/// Up to four bytes, of which four are an account and an empty book.
fn short_input(run: &mut Run, add: &mut Add) {
    for length in 0..=4 {
        for byte in [0, 1, 7, b'R', 0xFF] {
            add(run, vec![byte; length]);
        }
        add(run, worked_book().encode()[..length].to_vec());
    }
}

fn worked(run: &mut Run, add: &mut Add) {
    let book = worked_book().encode();
    let accounts = [7, 9, 0, 1, 8, 7 << 8, 7 << 16, 7 << 24, u32::MAX];
    for account in accounts {
        add(run, asked(account, &book));
    }
    add(run, asked(7, &empty_book().encode()));
}

fn every_account(run: &mut Run, add: &mut Add) {
    for _ in 0..120 {
        let pair = accepted(run, Sizes::SMALL);
        for account in asked_of(&pair) {
            add(run, asked(account, &pair.book.encode()));
        }
    }
}

/// Also in books without constraints and contracts, whose statements have no lines.
fn every_region(run: &mut Run, add: &mut Add) {
    let no_lines = Sizes {
        constraints: 0,
        contracts: 0,
        ..Sizes::SMALL
    };
    for round in 0..100 {
        let most = match round % 5 {
            0 => no_lines,
            _ => Sizes::SMALL,
        };
        let (pair, account) = run.in_every_region(most);
        let pair = alone(run, pair);
        add(run, asked(account, &pair.book.encode()));
    }
}

fn halves(run: &mut Run, add: &mut Add) {
    for _ in 0..60 {
        let pair = run.of_halves();
        let book = alone(run, pair).book.encode();
        for account in halves::ACCOUNTS {
            add(run, asked(account, &book));
        }
    }
}

/// Amounts up to 5,000,000.0000 dollars either way.
fn ends(run: &mut Run, add: &mut Add) {
    for _ in 0..250 {
        let pair = run.at_ends();
        let pair = alone(run, pair);
        let account = run.some_account(&pair);
        add(run, asked(account, &pair.book.encode()));
    }
}

fn medium_books(run: &mut Run, add: &mut Add) {
    for _ in 0..100 {
        let pair = accepted(run, Sizes::MEDIUM);
        let account = run.some_account(&pair);
        add(run, asked(account, &pair.book.encode()));
    }
}

fn large_books(run: &mut Run, add: &mut Add) {
    for _ in 0..10 {
        let pair = run.accepted_of(Sizes::LARGEST);
        let pair = alone(run, pair);
        let bytes = pair.book.encode();
        for _ in 0..4 {
            let account = run.some_account(&pair);
            add(run, asked(account, &bytes));
        }
    }
}

fn longest_statement(run: &mut Run, add: &mut Add) {
    for _ in 0..4 {
        let (mut book, account) = book_of_longest_statement(&mut run.random);
        add(run, asked(account, &book.encode()));
        set_amounts_to_ends(&mut run.random, &mut book);
        add(run, asked(account, &book.encode()));
    }
}

fn header_edges(run: &mut Run, add: &mut Add) {
    let mut book = worked_book().encode();
    edges::each(&mut book, 0, edges::HEADER, |book| {
        add(run, asked(7, book));
    });
}

/// Each fault in the first, the middle and the last record that can have it.
fn single_faults(run: &mut Run, add: &mut Add) {
    run.each_fault(Sizes::MEDIUM, 1, |run, pair, books| {
        let account = run.some_account(pair);
        let faulty = alone(run, Pair::alone(Book::decode(books.book)));
        add(run, asked(account, &faulty.book.encode()));
    });
}

/// Every length up to the whole, and a byte more.
fn truncations(run: &mut Run, add: &mut Add) {
    let mut book = worked_book().encode();
    book.push(0);
    for length in 0..=book.len() {
        add(run, asked(7, &book[..length]));
    }
}

/// A bit turned, and noise.
fn damage(run: &mut Run, add: &mut Add) {
    run.each_turned_book(400, |run, pair, books| {
        let account = run.some_account(pair);
        add(run, asked(account, books.book));
    });
    for _ in 0..50 {
        let mut bytes = vec![0; run.random.below(500)];
        sparse_noise(&mut run.random, &mut bytes);
        add(run, bytes);
    }
}

/// Input about as long as the program reads, and longer: a book that would be
/// accepted, the largest one and noise, with bytes behind them.
fn long_input(run: &mut Run, add: &mut Add) {
    let lengths = [
        MOST_READ - 1,
        MOST_READ,
        MOST_READ + 1,
        MOST_READ + 4,
        200_000,
    ];
    let largest = run.accepted_of(Sizes::LARGEST);
    let largest = largest.book.encode();
    let fronts = [worked_book().encode(), largest, vec![0xFF; 100]];
    for length in lengths {
        for front in &fronts {
            for filling in [0, b'R'] {
                let mut book = front.clone();
                book.resize(length - 4, filling);
                add(run, asked(7, &book));
            }
        }
    }
    let mut noise = vec![0; 3 * MOST_READ];
    run.random.fill(&mut noise);
    add(run, noise);
    let mut three = worked_book();
    three.header.run = 100;
    let mut three = three.encode();
    three.resize(MOST_READ + 100, 0);
    add(run, asked(7, &three));
}
