//! Locked books to go with a book: right ones, whose energies and accounts are others than
//! the book's own, and what makes one wrong that is right by itself.

use std::collections::BTreeSet;

use crate::book::{Book, EnergyRow};
use crate::requests::accounts::named;
use crate::requests::generate::{accepted_book, give_energy, Sizes};
use crate::requests::random::Random;

/// Gives every contract this kind.
pub fn set_kinds(book: &mut Book, kind: u8) {
    for contract in &mut book.contracts {
        contract.kind = kind;
    }
}

/// The regions that contracts of kind 2 benefit, as a mask.
pub fn regions_of_tests(book: &Book) -> u8 {
    let tests = book.contracts.iter().filter(|contract| contract.kind == 2);
    let regions = tests.flat_map(|contract| (0..5).filter(|&at| contract.factors[at] != 0));
    regions.fold(0, |mask, region| mask | 1 << region)
}

/// A locked book that the book is accepted with, of sizes that [`Sizes::draw`] might give:
/// of the same date and interval, of the same run or an earlier one, with energy wherever
/// a contract of kind 2 benefits. Some of its accounts are the book's. What its own
/// constraints and contracts divide by may be zero, which nobody asks.
pub fn locked_book(random: &mut Random, book: &Book, sizes: Sizes) -> Book {
    let mut locked = accepted_book(random, sizes);
    locked.header.date = book.header.date;
    locked.header.interval = book.header.interval;
    locked.header.run = random.edged(1, i64::from(book.header.run)) as u16;
    let known = named(book);
    for row in &mut locked.units {
        if random.coin() {
            row.account = some_name(random, &known);
        }
    }
    let anchors = regions_of_tests(book);
    locked.energies = rows_at(places(random, &known, anchors, sizes.energies));
    give_energy(random, &mut locked.energies, anchors);
    locked.total_regions();
    locked
}

/// One of the known accounts, one near them, or any.
fn some_name(random: &mut Random, known: &[u32]) -> u32 {
    let drawn = match random.below(5) {
        0..=2 if !known.is_empty() => *random.pick(known),
        3 if !known.is_empty() => random.pick(known).wrapping_add(random.below(3) as u32),
        _ => random.edged(1, i64::from(u32::MAX)) as u32,
    };
    drawn.max(1)
}

/// Accounts and regions of so many energy rows, or as many as it takes to have one in each
/// region of the mask.
fn places(random: &mut Random, known: &[u32], regions: u8, count: usize) -> BTreeSet<(u32, u8)> {
    let wanted = (0..5).filter(|region| regions >> region & 1 == 1);
    let mut places: BTreeSet<(u32, u8)> = wanted
        .map(|region| (some_name(random, known), region))
        .collect();
    while places.len() < count {
        places.insert((some_name(random, known), random.below(5) as u8));
    }
    places
}

fn rows_at(places: BTreeSet<(u32, u8)>) -> Vec<EnergyRow> {
    let rows = places.into_iter().map(|(account, region)| EnergyRow {
        account,
        region,
        ..EnergyRow::default()
    });
    rows.collect()
}

/// What refuses a locked book that keeps checks 1 to 9 by itself: a change of its header.
pub struct Misfit {
    pub name: &'static str,
    pub apply: fn(&mut Random, locked: &mut Book, book: &Book),
}

pub const MISFITS: [Misfit; 3] = [
    Misfit {
        name: "another date",
        apply: |random, locked, book| {
            // Every month has 28 days. Of two dates one is not the book's.
            let day = random.between(1, 27) as u32;
            let month = book.header.date / 100 * 100;
            let is_taken = month + day == book.header.date;
            locked.header.date = month + day + u32::from(is_taken);
        },
    },
    Misfit {
        name: "another interval",
        apply: |random, locked, book| {
            let step = random.between(1, 287) as u16;
            locked.header.interval = (book.header.interval - 1 + step) % 288 + 1;
        },
    },
    Misfit {
        name: "a later run",
        apply: |random, locked, book| {
            let after = i64::from(book.header.run) + 1;
            locked.header.run = random.edged(after.min(99), 99) as u16;
        },
    },
];

#[cfg(test)]
mod tests {
    use super::{locked_book, regions_of_tests, set_kinds, MISFITS};
    use crate::books::Pair;
    use crate::reference;
    use crate::requests::accounts::named;
    use crate::requests::generate::{accepted_book, Sizes};
    use crate::requests::random::Random;
    use crate::requests::worked::{contract, empty_book};
    use crate::Refusal;

    #[test]
    fn the_regions_are_those_of_kind_2() {
        let mut book = empty_book();
        book.contracts = vec![
            contract(1, 2, 0, [500_000, 0, 0, 500_000, 0]),
            contract(2, 1, 0, [0, 1_000_000, 0, 0, 0]),
            contract(3, 2, 0, [0, 0, 0, 0, 1_000_000]),
        ];
        assert_eq!(regions_of_tests(&book), 0b11001);
    }

    /// A pair of which every contract is of kind 2, and the run is 1 to 98.
    fn pair(random: &mut Random, sizes: Sizes) -> Pair {
        let mut book = accepted_book(random, sizes);
        book.header.run = book.header.run.min(98);
        set_kinds(&mut book, 2);
        let locked = locked_book(random, &book, sizes);
        Pair::of(book, locked)
    }

    #[test]
    fn books_are_accepted_with_their_locked_book() {
        let mut random = Random::new(1);
        let mut shared = 0;
        for sizes in [Sizes::SMALL, Sizes::MEDIUM, Sizes::LARGEST].repeat(20) {
            let Pair { book, locked } = pair(&mut random, sizes);
            let locked = locked.expect("there is one");
            let bytes = Pair::of(book.clone(), locked.clone()).encode();
            assert_eq!(reference::check(&bytes), Ok(()));
            let known = named(&book);
            let both = named(&locked).into_iter().filter(|of| known.contains(of));
            shared += usize::from(both.count() > 0);
        }
        assert!(shared > 40, "{shared} of 60 pairs share an account");
    }

    /// 84 + 4 x 40 + 7 x 20 + 7 x 24 = 552.
    #[test]
    fn a_misfit_is_refused() {
        let mut random = Random::new(1);
        for misfit in MISFITS.iter().cycle().take(300) {
            let mut pair = pair(&mut random, Sizes::SMALL);
            let locked = pair.locked.as_mut().expect("there is one");
            (misfit.apply)(&mut random, locked, &pair.book);
            let refused = Refusal {
                number: 18,
                place: 552,
            };
            let given = reference::check(&pair.encode());
            assert_eq!(given, Err(refused), "{}", misfit.name);
        }
    }
}
