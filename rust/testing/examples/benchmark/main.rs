//! Times the library beside the fast Rust version (`testing/src/fast`), in one run and on the
//! same books, dispatch rows and reconciliation files, and sees how much stack the library's
//! calls use.
//!
//!     tests/native                  (only where the machine is not x86-64)
//!     cd rust && cargo run --release --offline --features native --example benchmark
//!
//! A time is the least of many rounds, which are made of both by turns: what else
//! the machine does can only add to it.

mod books;
mod cutoff;
mod dispatch;
mod locked;
mod nmas;
mod stack;
mod timing;

use std::hint::black_box;

use books::Asked;
use dispatch::Rows;
use fervolatro_testing::book::Book;
use fervolatro_testing::fast::Fields;
use fervolatro_testing::reference::{Kind, Pool};
use fervolatro_testing::requests::generate::Sizes;
use fervolatro_testing::{fast, library, reference};
use timing::{alone, side_by_side, Times};

const POOLS_AT_A_TIME: usize = 4;

/// How often the library is timed where nothing stands beside it.
const ROUNDS_ALONE: usize = 40;

const MOST_LINES: usize = 2_152;

fn main() {
    let books = books::all();
    println!("{}", Times::HEADING);
    for asked in &books {
        println!("{}", check(asked).row("check", asked));
    }
    for asked in &books {
        println!("{}", length(asked).row("length", asked));
    }
    for asked in &books {
        println!("{}", statement(asked).row("statement", asked));
    }
    for asked in &books {
        let times = length_and_statement(asked);
        println!("{}", times.row("length and statement", asked));
    }
    for asked in &books {
        let statement = asked.statement();
        println!(
            "{}",
            all_lines(&statement).row("all lines read", &statement)
        );
    }
    for asked in &books {
        balances(asked);
    }
    for asked in &books {
        cutoff::print(asked);
    }
    costs();
    length_of_check(&books);
    chosen_accounts(&books[2]);
    let pairs = books::pairs();
    locked::print(&pairs, &[&books[1], &books[2], &books[3]]);
    nmas::print(&books[3], &pairs.usual[2]);
    growth();
    stack::print(books.iter().chain(&pairs.usual));
}

/// The library's calls on the books, as they are timed.
impl Asked {
    fn is_checked(&self) -> bool {
        fervolatro::check(black_box(&self.bytes), black_box(self.locked())).is_ok()
    }

    fn is_measured(&self) -> bool {
        self.measured().is_ok()
    }

    fn measured(&self) -> Result<usize, fervolatro::Refusal> {
        let (book, locked) = (&self.bytes, self.locked());
        fervolatro::length(black_box(book), black_box(locked), self.account)
    }

    fn is_settled(&self, buffer: &mut [u8]) -> bool {
        let (book, locked) = (black_box(&self.bytes), black_box(self.locked()));
        fervolatro::statement_into(book, locked, self.account, black_box(buffer)).is_ok()
    }

    fn is_balanced(&self, pool: u64) -> bool {
        fervolatro::balance(black_box(&self.bytes), black_box(self.locked()), pool).is_ok()
    }
}

fn check(asked: &Asked) -> Times {
    let books = asked.books();
    side_by_side(
        || asked.is_checked(),
        || fast::check(black_box(books)).is_ok(),
    )
}

fn length(asked: &Asked) -> Times {
    let (books, account) = (asked.books(), asked.account);
    let theirs = library::length(books, account);
    assert_eq!(theirs, fast::length(books, account), "{}", asked.name);
    side_by_side(
        || asked.is_measured(),
        || fast::length(black_box(books), account).is_ok(),
    )
}

/// A buffer for the account's statement, of just its length.
fn just_room(asked: &Asked) -> Vec<u8> {
    let length = asked.measured();
    vec![0; length.expect("the account is known")]
}

fn statement(asked: &Asked) -> Times {
    let (books, account) = (asked.books(), asked.account);
    let [mut theirs, mut ours] = [just_room(asked), just_room(asked)];
    let times = side_by_side(
        || asked.is_settled(&mut theirs),
        || fast::statement(black_box(books), account, black_box(&mut ours)).is_ok(),
    );
    assert!(theirs == ours, "{}: they write differently", asked.name);
    times
}

/// Both calls, as a caller makes them who asks first: the statement goes into as much of
/// the buffer as the length says.
fn length_and_statement(asked: &Asked) -> Times {
    let (books, account) = (asked.books(), asked.account);
    let [mut theirs, mut ours] = [just_room(asked), just_room(asked)];
    let times = side_by_side(
        || {
            let length = asked.measured();
            length.is_ok_and(|length| asked.is_settled(&mut theirs[..length]))
        },
        || {
            fast::length(black_box(books), account).is_ok_and(|length| {
                let room = black_box(&mut ours[..length]);
                fast::statement(black_box(books), account, room).is_ok()
            })
        },
    );
    assert!(theirs == ours, "{}: they write differently", asked.name);
    times
}

/// All lines of a statement, read into numbers. Each has room for the most there can
/// be.
fn all_lines(statement: &Asked) -> Times {
    let bytes = &statement.bytes[..];
    let mut theirs = vec![0; MOST_LINES * size_of::<Fields>()];
    let mut ours = vec![Fields::default(); MOST_LINES];
    let times = side_by_side(
        || fervolatro::lines_into(black_box(bytes), black_box(&mut theirs)).is_ok(),
        || fast::lines(black_box(bytes), black_box(&mut ours)).is_ok(),
    );
    let bytes = ours.iter().flat_map(Fields::bytes);
    assert!(
        theirs.into_iter().eq(bytes),
        "{}: they read differently",
        statement.name
    );
    times
}

/// One pool.
fn balance(asked: &Asked, pool: u64) -> Times {
    let books = asked.books();
    assert_eq!(
        library::balance(books, pool),
        fast::balance(books, pool),
        "{}, pool {pool}",
        asked.name
    );
    side_by_side(
        || asked.is_balanced(pool),
        || fast::balance(black_box(books), pool).is_ok(),
    )
}

/// A pool of each kind, and what one takes on average over all.
fn balances(asked: &Asked) {
    for kind in Kind::ALL {
        if let Some(pool) = fullest(asked, kind) {
            let call = format!("balance, {kind:?}");
            println!("{}", balance(asked, pool).row(&call, asked));
        }
    }
    println!("{}", average(asked).row("balance, average", asked));
}

/// What a pool takes on average over all, a few at a time: a round of all would be so
/// long that something else always came between.
fn average(asked: &Asked) -> Times {
    let books = asked.books();
    let numbers = pool_numbers(&asked.bytes);
    let of_all = numbers.chunks(POOLS_AT_A_TIME).map(|few| {
        side_by_side(
            || few.iter().all(|&pool| asked.is_balanced(pool)),
            || {
                few.iter()
                    .all(|&pool| fast::balance(black_box(books), pool).is_ok())
            },
        )
    });
    of_all.sum::<Times>().divided_by(numbers.len())
}

fn pool_numbers(book: &[u8]) -> Vec<u64> {
    let count = reference::pools(&Book::decode(book)).len() as u64;
    (0..count).collect()
}

/// The pool of a kind that asks for most: by its lines, of those that have a residual
/// pool, if there are.
fn fullest(asked: &Asked, kind: Kind) -> Option<u64> {
    let books = asked.books();
    let decoded = Book::decode(books.book);
    let has_residual = |id: u32| {
        let mut constraints = decoded.constraints.iter();
        constraints.any(|of| of.id == id && of.rcf < 0 && of.drcf < 0)
    };
    let asks_for = |pool: &Pool, number: u64| {
        let lines = fast::balance(books, number).map_or(0, |balance| balance.lines);
        (has_residual(pool.id), lines)
    };
    (0..)
        .zip(reference::pools(&decoded))
        .filter(|(_, pool)| pool.kind == kind)
        .max_by_key(|(number, pool)| asks_for(pool, *number))
        .map(|(number, _)| number)
}

/// A payment and a base cost, of few dispatch rows and of many.
fn costs() {
    for count in [1_000, 100_000] {
        let rows = dispatch::rows(count);
        let (name, bytes) = (&rows.name, rows.bytes.len());
        println!("{}", payment(&rows).row_of("payment", name, bytes));
        println!("{}", base_cost(&rows).row_of("base cost", name, bytes));
    }
}

fn payment(asked: &Rows) -> Times {
    let (rows, service) = (&asked.bytes[..], asked.service);
    let theirs = library::payment(rows, service);
    assert_eq!(theirs, fast::payment(rows, service), "{}", asked.name);
    side_by_side(
        || fervolatro::payment(black_box(rows), service).is_ok(),
        || fast::payment(black_box(rows), service).is_ok(),
    )
}

fn base_cost(asked: &Rows) -> Times {
    let (rows, id, service) = (&asked.bytes[..], asked.id, asked.service);
    let theirs = library::base_cost(rows, id, service);
    assert_eq!(theirs, fast::base_cost(rows, id, service), "{}", asked.name);
    side_by_side(
        || fervolatro::base_cost(black_box(rows), id, service).is_ok(),
        || fast::base_cost(black_box(rows), id, service).is_ok(),
    )
}

/// The library's length beside its own check, which is the most of it: on the largest
/// books at most 1.2 of the check's time are allowed.
fn length_of_check(books: &[Asked]) {
    println!("\nlength of check, both the library's");
    println!("book                              bytes     length ns      check ns  ratio");
    for asked in books {
        let times = side_by_side(|| asked.is_measured(), || asked.is_checked());
        let (name, bytes) = (&asked.name, asked.length());
        let (length, check, ratio) = (times.library, times.beside, times.ratio());
        println!("{name:<32} {bytes:>6} {length:>13.1} {check:>13.1} {ratio:>6.2}");
    }
}

/// The library's average balance of books whose accounts are chosen against its count of
/// them, and how many times that is of an ordinary book of the same size: 20 at most are
/// allowed. The first ten bits alike make one chain of the hash table that the library
/// had before.
fn chosen_accounts(ordinary: &Asked) {
    println!("\nbalance, accounts chosen against the count");
    chosen_beside(ordinary, [10, 14, 18, 22].map(books::against));
}

/// The library's average balance of each, and how many times that is of the ordinary
/// one's.
fn chosen_beside(ordinary: &Asked, chosen: [Asked; 4]) {
    println!("book                              bytes    library ns  of an ordinary one's");
    let usual = library_average(ordinary);
    let row = |asked: &Asked, time: f64| {
        let (name, bytes, times) = (&asked.name, asked.length(), time / usual);
        println!("{name:<32} {bytes:>6} {time:>13.1} {times:>12.1} times");
    };
    row(ordinary, usual);
    for asked in &chosen {
        row(asked, library_average(asked));
    }
}

/// What a pool takes the library on average over all, in nanoseconds.
fn library_average(asked: &Asked) -> f64 {
    let numbers = pool_numbers(&asked.bytes);
    let of_all = numbers.chunks(POOLS_AT_A_TIME).map(|few| {
        alone(ROUNDS_ALONE, || {
            few.iter().all(|&pool| asked.is_balanced(pool))
        })
    });
    of_all.sum::<f64>() / numbers.len() as f64
}

/// How the times grow with the energy rows and with the unit rows, all else as large
/// as may be.
fn growth() {
    println!("\ngrowth with the rows\n{}", Times::HEADING);
    let parts = [0, 1, 2, 4, 8];
    let largest = Sizes::LARGEST;
    let by_energies = parts.map(|eighths| Sizes {
        energies: (largest.energies * eighths / 8).max(1),
        ..largest
    });
    let by_units = parts.map(|eighths| Sizes {
        units: largest.units * eighths / 8,
        ..largest
    });
    for sizes in by_energies.into_iter().chain(by_units) {
        let asked = books::of(sizes);
        println!("{}", check(&asked).row("check", &asked));
        println!("{}", statement(&asked).row("statement", &asked));
        let pool = fullest(&asked, Kind::Contingency).expect("there is one");
        println!(
            "{}",
            balance(&asked, pool).row("balance, Contingency", &asked)
        );
    }
}
