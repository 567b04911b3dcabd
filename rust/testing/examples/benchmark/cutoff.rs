//! What roundings cut off, stage by stage, of the pools that ask for most.

use std::hint::black_box;

use super::books::Asked;
use super::fullest;
use super::timing::{side_by_side, Times};
use fervolatro_testing::reference::Kind;
use fervolatro_testing::{fast, library};

/// The stages that are timed, by the kind of a pool that has them and by their numbers in
/// it: those that pass the rows, and of each kind of pool one that passes none.
const STAGES: [(&str, Kind, u64); 7] = [
    ("line", Kind::Contingency, 0),
    ("pool", Kind::Used, 0),
    ("unit", Kind::Fpp, 1),
    ("share", Kind::Fpp, 3),
    ("whole", Kind::Contract, 0),
    ("ace", Kind::Contract, 2),
    ("asoe", Kind::Contract, 3),
];

/// Each stage that the book has.
pub fn print(asked: &Asked) {
    for (name, kind, index) in STAGES {
        if let Some(pool) = fullest(asked, kind) {
            let call = format!("cut-off, {name}");
            println!("{}", cutoff(asked, pool, index).row(&call, asked));
        }
    }
}

/// Those of a contract, which the locked book settles.
pub fn print_of_a_contract(asked: &Asked) {
    let pool = fullest(asked, Kind::Contract).expect("it has contracts");
    for (name, index) in [("whole", 0), ("ace", 2), ("asoe", 3)] {
        let call = format!("cut-off, {name}");
        println!("{}", cutoff(asked, pool, index).row(&call, asked));
    }
}

/// One stage.
fn cutoff(asked: &Asked, pool: u64, index: u64) -> Times {
    let books = asked.books();
    assert_eq!(
        library::cutoff(books, pool, index),
        fast::cutoff(books, pool, index),
        "{}, pool {pool}, stage {index}",
        asked.name
    );
    side_by_side(
        || {
            let (book, locked) = (black_box(&asked.bytes), black_box(asked.locked()));
            fervolatro::cutoff(book, locked, pool, index).is_ok()
        },
        || fast::cutoff(black_box(books), pool, index).is_ok(),
    )
}
