//! Accounts chosen against the way in which the library counts the accounts of a book, or of
//! a book and the locked one.
//!
//! An account's key is its product with a fixed odd number, of which the lowest 32 bits
//! count. The unit rows' accounts stand in trees: the first eight bits of the key choose
//! the tree, each further bit a branch, and the accounts of energy rows are looked up
//! there. So accounts whose keys share their leading bits have long ways. (Before the
//! trees, the first ten bits of the key chose a chain.)

use std::collections::BTreeSet;

use crate::book::Book;
use crate::requests::generate::energies_at;
use crate::requests::random::Random;

const FACTOR: u32 = 2_654_435_761;

/// Times a key it is the key's account: the factor's inverse.
const INVERSE: u32 = inverse(FACTOR);

/// An odd number is its own inverse in the lowest three bits, and each step doubles the
/// number of bits that are right.
const fn inverse(odd: u32) -> u32 {
    let mut inverse = odd;
    let mut right = 3;
    while right < 32 {
        inverse = inverse.wrapping_mul(2_u32.wrapping_sub(odd.wrapping_mul(inverse)));
        right *= 2;
    }
    inverse
}

/// So many different accounts, none of them 0, whose keys share so many leading bits.
fn alike(random: &mut Random, bits: u32, count: usize) -> Vec<u32> {
    let free = 32 - bits;
    assert!(count <= 1 << free, "so many keys do not share {bits} bits");
    let front = (random.between(1, (1 << bits) - 1) as u32) << free;
    let mut keys = BTreeSet::new();
    let mut accounts = Vec::with_capacity(count);
    while accounts.len() < count {
        let key = front | random.below(1 << free) as u32;
        if keys.insert(key) {
            accounts.push(key.wrapping_mul(INVERSE));
        }
    }
    accounts
}

/// Gives the books other accounts, whose keys all share so many leading bits: each unit row
/// one of its own, and the energy rows as many others as there are left for the book, one
/// for each row at most. All five regions have energy, where there are five accounts or
/// more. No account is in two of the books.
pub fn against_the_count(random: &mut Random, books: &mut [&mut Book], bits: u32) {
    let units: usize = books.iter().map(|book| book.units.len()).sum();
    let left = ((1 << (32 - bits)) - units) / books.len();
    let accounts = |book: &Book| book.energies.len().min(left);
    let of_energies: usize = books.iter().map(|book| accounts(book)).sum();
    let alike = alike(random, bits, units + of_energies);
    let mut rest = &alike[..];
    for book in books {
        let own = rest.split_off(..book.units.len() + accounts(book));
        give_accounts(random, book, own.expect("there are so many"));
    }
}

/// Gives the unit rows one account each, and the energy rows the rest.
fn give_accounts(random: &mut Random, book: &mut Book, accounts: &[u32]) {
    let (of_units, of_energies) = accounts.split_at(book.units.len());
    for (row, &account) in book.units.iter_mut().zip(of_units) {
        row.account = account;
    }
    let rows = book.energies.len();
    let mut of_energies = of_energies.to_vec();
    of_energies.sort_unstable();
    let each = rows.div_ceil(of_energies.len());
    assert!(each <= 5, "an account has a row in each region at most");
    let places = (0..rows).map(|row| {
        let region = row % each + row / each % (6 - each);
        (of_energies[row / each], region as u8)
    });
    book.energies = energies_at(random, places);
    book.total_regions();
}

#[cfg(test)]
mod tests {
    use super::{against_the_count, FACTOR, INVERSE};
    use crate::books::Pair;
    use crate::reference;
    use crate::requests::accounts::{named, named_by};
    use crate::requests::generate::{accepted_book, Sizes};
    use crate::requests::locked::{locked_book, set_kinds};
    use crate::requests::random::Random;

    #[test]
    fn the_inverse_gives_an_account_back() {
        assert_eq!(FACTOR.wrapping_mul(INVERSE), 1);
    }

    fn assert_alike(accounts: &[u32], bits: u32) {
        let mut fronts = accounts
            .iter()
            .map(|account| account.wrapping_mul(FACTOR) >> (32 - bits));
        let first = fronts.next();
        assert!(fronts.all(|front| Some(front) == first), "{bits} bits");
    }

    /// 2^10 keys share 22 bits: 600 units leave 424 for 1,024 rows, three each.
    #[test]
    fn largest_books_are_accepted_and_their_keys_alike() {
        let mut random = Random::new(1);
        for (bits, of_energies) in [(10, 1_024), (14, 1_024), (18, 1_024), (22, 342)] {
            let mut book = accepted_book(&mut random, Sizes::LARGEST);
            set_kinds(&mut book, 1);
            against_the_count(&mut random, &mut [&mut book], bits);
            assert_eq!(reference::check(&book.encode()), Ok(()), "{bits} bits");
            assert_eq!(book.encode().len(), 39_796);
            let accounts = named(&book);
            assert_eq!(accounts.len(), 600 + of_energies, "{bits} bits");
            assert_alike(&accounts, bits);
        }
    }

    /// 2^11 keys share 21 bits: 1,200 units leave 848, 424 for the rows of each book.
    #[test]
    fn largest_pairs_are_accepted_and_their_keys_alike() {
        let mut random = Random::new(1);
        for (bits, of_energies) in [(10, 1_024), (14, 1_024), (20, 1_024), (21, 342)] {
            let mut book = accepted_book(&mut random, Sizes::LARGEST);
            set_kinds(&mut book, 2);
            let mut locked = locked_book(&mut random, &book, Sizes::LARGEST);
            against_the_count(&mut random, &mut [&mut book, &mut locked], bits);
            let pair = Pair::of(book, locked);
            assert_eq!(reference::check(&pair.encode()), Ok(()), "{bits} bits");
            assert_eq!(pair.encode().locked.len(), 39_796);
            let accounts = named_by(&pair);
            assert_eq!(accounts.len(), 2 * (600 + of_energies), "{bits} bits");
            assert_alike(&accounts, bits);
        }
    }
}
