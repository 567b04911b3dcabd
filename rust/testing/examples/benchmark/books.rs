//! The books that are timed.

use std::collections::BTreeMap;

use fervolatro_testing::book::Book;
use fervolatro_testing::requests::accounts::{named, share_units};
use fervolatro_testing::requests::chosen::against_the_count;
use fervolatro_testing::requests::generate::{
    accepted_book, book_of_longest_statement, energies_at, give_energy, Sizes,
};
use fervolatro_testing::requests::locked::set_kinds;
use fervolatro_testing::requests::random::Random;
use fervolatro_testing::requests::worked::worked_book;
use fervolatro_testing::{reference, Books};

const SEED: u64 = 20_250_608;

const MIDDLING: Sizes = Sizes {
    constraints: 16,
    units: 120,
    energies: 200,
    contracts: 4,
};

/// A book with the locked one, if there is one, and the account whose statement is asked
/// for; or that statement.
pub struct Asked {
    pub name: String,
    pub bytes: Vec<u8>,
    /// Empty where there is none.
    pub locked: Vec<u8>,
    pub account: u32,
}

impl Asked {
    fn new(name: &str, book: &Book, account: u32) -> Self {
        Asked {
            name: name.to_string(),
            bytes: book.encode(),
            locked: Vec::new(),
            account,
        }
    }

    /// The book with every contract of kind 2, and this locked book, made one of the same
    /// run.
    fn with_locked(name: &str, book: &Book, locked: &Book) -> Self {
        let (mut book, mut locked) = (book.clone(), locked.clone());
        set_kinds(&mut book, 2);
        locked.header = book.header;
        Asked {
            locked: locked.encode(),
            ..Asked::new(name, &book, book.units[0].account)
        }
    }

    /// The account's statement, under the book's name.
    pub fn statement(&self) -> Self {
        let settled = reference::settle(self.books(), self.account);
        Asked {
            name: self.name.clone(),
            bytes: settled.expect("the account is known").encode(),
            locked: Vec::new(),
            account: self.account,
        }
    }

    pub fn books(&self) -> Books<'_> {
        Books::of(&self.bytes, &self.locked)
    }

    /// The locked book as the package for users takes it.
    pub fn locked(&self) -> Option<&[u8]> {
        (!self.locked.is_empty()).then_some(&self.locked)
    }

    /// How many bytes are read.
    pub fn length(&self) -> usize {
        self.bytes.len() + self.locked.len()
    }
}

/// A middling book, and the largest legal one in two kinds. All contracts are of kind 1.
struct Plain {
    middling: Book,
    /// Most units have an account of their own.
    largest: Book,
    /// All units are one account's.
    longest: Book,
}

impl Plain {
    fn drawn() -> Self {
        let mut random = Random::new(SEED);
        let mut middling = accepted_book(&mut random, MIDDLING);
        share_units(&mut random, &mut middling);
        let mut plain = Plain {
            middling,
            largest: accepted_book(&mut random, Sizes::LARGEST),
            longest: largest_of_longest_statement(&mut random),
        };
        let Plain {
            middling,
            largest,
            longest,
        } = &mut plain;
        for book in [middling, largest, longest] {
            leave_no_pool_empty(&mut random, book);
            set_kinds(book, 1);
        }
        plain
    }
}

/// The worked book, a middling one, and the largest legal one in three kinds, each by
/// itself.
pub fn all() -> Vec<Asked> {
    let Plain {
        middling,
        largest,
        longest,
    } = Plain::drawn();
    let account = largest.units[0].account;
    vec![
        Asked::new("worked", &worked_book(), 7),
        Asked::new("middling", &middling, middling.units[0].account),
        Asked::new("largest, many accounts", &largest, account),
        Asked::new("largest, longest", &longest, 7),
        Asked::new("largest, five regions", &over_all_regions(largest), account),
    ]
}

/// Books of which every contract is of kind 2, with a locked book as large.
pub struct Pairs {
    /// The same three as in [`all`], which stand there with contracts of kind 1.
    pub usual: [Asked; 3],
    /// A middling book with the largest locked one.
    pub unequal: Asked,
    /// The largest with many accounts, of which the locked one has none.
    pub disjoint: Asked,
}

pub fn pairs() -> Pairs {
    let Plain {
        middling,
        largest,
        longest,
    } = Plain::drawn();
    let mut random = Random::new(SEED);
    let mut locked = [&middling, &largest, &longest].map(|book| locked_like(&mut random, book));
    let usual = [
        Asked::with_locked("middling", &middling, &locked[0]),
        Asked::with_locked("largest, many accounts", &largest, &locked[1]),
        Asked::with_locked("largest, longest", &longest, &locked[2]),
    ];
    let unequal = Asked::with_locked("middling beside largest", &middling, &locked[1]);
    rename_accounts(&mut random, &mut locked[1]);
    Pairs {
        usual,
        unequal,
        disjoint: Asked::with_locked("largest, other accounts", &largest, &locked[1]),
    }
}

/// A locked book with the rows of the book, but with other energies, some in each region.
fn locked_like(random: &mut Random, book: &Book) -> Book {
    let mut locked = book.clone();
    give_energy(random, &mut locked.energies, 31);
    locked.total_regions();
    locked
}

/// Gives each account a name that the book does not have.
fn rename_accounts(random: &mut Random, book: &mut Book) {
    let known = named(book);
    let mut names = BTreeMap::new();
    for &account in &known {
        let mut name = || random.between(1, i64::from(u32::MAX)) as u32;
        let mut drawn = name();
        while known.contains(&drawn) || names.values().any(|taken| *taken == drawn) {
            drawn = name();
        }
        names.insert(account, drawn);
    }
    for row in &mut book.units {
        row.account = names[&row.account];
    }
    for row in &mut book.energies {
        row.account = names[&row.account];
    }
    book.energies.sort_by_key(|row| (row.account, row.region));
}

/// The book with every constraint over all five regions, the most that it can sum. What it
/// divides by is then no less than before.
fn over_all_regions(mut book: Book) -> Book {
    for constraint in &mut book.constraints {
        constraint.regions = 31;
    }
    book
}

/// The largest legal book, its accounts chosen against the library's count of them: the
/// keys of all share so many leading bits.
pub fn against(bits: u32) -> Asked {
    let mut random = Random::new(SEED);
    let mut book = Plain::drawn().largest;
    against_the_count(&mut random, &mut [&mut book], bits);
    let name = format!("{bits} leading bits alike");
    Asked::new(&name, &book, book.units[0].account)
}

/// The largest legal book with a locked one as large, the accounts of both so chosen, no
/// two of them the same.
pub fn pair_against(bits: u32) -> Asked {
    let mut random = Random::new(SEED);
    let mut book = Plain::drawn().largest;
    let mut locked = locked_like(&mut random, &book);
    against_the_count(&mut random, &mut [&mut book, &mut locked], bits);
    let name = format!("{bits} leading bits alike");
    Asked::with_locked(&name, &book, &locked)
}

/// A book of these sizes, named after them, and an account that has energy.
pub fn of(sizes: Sizes) -> Asked {
    let mut random = Random::new(SEED);
    let mut book = accepted_book(&mut random, sizes);
    set_kinds(&mut book, 1);
    leave_no_pool_empty(&mut random, &mut book);
    let name = format!("{} unit, {} energy", sizes.units, sizes.energies);
    Asked::new(&name, &book, book.energies[0].account)
}

/// The contracts of the book with the longest statement, and next to nothing else: what
/// they are shared by, and no constraint.
pub fn of_contracts() -> Asked {
    let mut random = Random::new(SEED);
    let (mut book, account) = book_of_longest_statement(&mut random);
    book.constraints.clear();
    book.units.clear();
    leave_no_pool_empty(&mut random, &mut book);
    Asked::new("16 contracts", &book, account)
}

/// Gives every pool an amount: one of nothing takes less time, and the random books of
/// the tests have many.
fn leave_no_pool_empty(random: &mut Random, book: &mut Book) {
    let mut money = || random.between(1_000_000_000, 50_000_000_000);
    for constraint in &mut book.constraints {
        constraint.cost = money();
        if constraint.mode == 1 {
            (constraint.price, constraint.rcr) = (9_855, 90_000);
            constraint.usage = 400_000;
        }
    }
    for contract in &mut book.contracts {
        contract.payment = money();
    }
}

/// The largest legal book in which account 7 has the longest statement there is: all
/// constraints are factored, all units the account's, and 1,024 energy rows in five
/// regions stand in place of the few that such a book needs.
fn largest_of_longest_statement(random: &mut Random) -> Book {
    let (mut book, account) = book_of_longest_statement(random);
    let places = (0..).take(Sizes::LARGEST.energies);
    let places = places.map(|place| (account + place / 5, (place % 5) as u8));
    book.energies = energies_at(random, places);
    book.total_regions();
    book
}
