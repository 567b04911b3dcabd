//! The requests that several comparisons are made on: accepted books of every sort, each
//! with a locked book beside it where it wants one, and books with faults.

use super::run::{Run, Units};
use crate::book::Book;
use crate::books::{has_test, Books, Encoded, Pair};
use crate::reference;
use crate::requests::accounts::{self, named_by, share_units, spread};
use crate::requests::damage::{sparse_noise, turn_bit};
use crate::requests::faults::{self, Spot};
use crate::requests::generate::{accepted_book, set_amounts_to_ends, Sizes};
use crate::requests::halves::book_of_halves;
use crate::requests::locked::locked_book;

impl Run {
    /// An accepted book with up to so many records of each kind.
    pub fn accepted(&mut self, most: Sizes) -> Pair {
        let sizes = Sizes::draw(&mut self.random, most);
        self.accepted_of(sizes)
    }

    /// An accepted book with so many records of each kind.
    pub fn accepted_of(&mut self, sizes: Sizes) -> Pair {
        let book = self.book_of(sizes);
        self.paired(book, sizes)
    }

    /// The book with a locked one of up to so many records, or just so many, with which it
    /// is accepted. Where none is read, there is one or there is none.
    pub fn paired(&mut self, book: Book, most: Sizes) -> Pair {
        if !has_test(&book) && self.random.coin() {
            return Pair::alone(book);
        }
        let sizes = match self.random.below(4) {
            0 => most,
            _ => Sizes::draw(&mut self.random, most),
        };
        let locked = locked_book(&mut self.random, &book, sizes);
        Pair::of(book, locked)
    }

    /// A book that is accepted if the locked one is.
    fn book_of(&mut self, sizes: Sizes) -> Book {
        let mut book = accepted_book(&mut self.random, sizes);
        let is_shared = match self.units {
            Units::Own => false,
            Units::Shared => true,
            Units::Either => self.random.coin(),
        };
        if is_shared {
            share_units(&mut self.random, &mut book);
        }
        book
    }

    /// A large book, and each fourth time one of the largest size.
    pub fn large(&mut self, round: usize) -> Pair {
        match round % 4 {
            0 => self.accepted_of(Sizes::LARGEST),
            _ => self.accepted(Sizes::LARGEST),
        }
    }

    /// Books by whose energies every amount ends in a half or not far from it.
    pub fn of_halves(&mut self) -> Pair {
        let [book, locked] = [0; 2].map(|_: i32| book_of_halves(&mut self.random));
        Pair::of(book, locked)
    }

    /// A small book with amounts at the ends of their ranges.
    pub fn at_ends(&mut self) -> Pair {
        let mut pair = self.accepted(Sizes::SMALL);
        set_amounts_to_ends(&mut self.random, &mut pair.book);
        pair
    }

    /// A book in which the account has energy in every region, at times in the locked one
    /// too.
    pub fn in_every_region(&mut self, most: Sizes) -> (Pair, u32) {
        let mut pair = self.accepted(most);
        let account = self.some_account(&pair).max(1);
        spread(&mut self.random, &mut pair.book, account);
        let is_both = self.random.coin();
        if let Some(locked) = pair.locked.as_mut().filter(|_| is_both) {
            spread(&mut self.random, locked, account);
        }
        (pair, account)
    }

    /// An account that is there if there are any, at times one beside it or 0.
    pub fn some_account(&mut self, pair: &Pair) -> u32 {
        accounts::some_account(&mut self.random, pair)
    }

    /// Room for an account's statement: just its length, one byte less, or any below
    /// `most`; the last where there is no statement.
    pub fn some_room<'b>(
        &mut self,
        books: impl Into<Books<'b>>,
        account: u32,
        most: usize,
    ) -> usize {
        let any = self.random.below(most);
        match reference::length(books, account) {
            Ok(length) => *self.random.pick(&[length, length - 1, any]),
            Err(_) => any,
        }
    }

    /// Each fault, so many times in the first, the middle and the last record that can
    /// have it: the books without it, and the bytes with it.
    pub fn each_fault(
        &mut self,
        most: Sizes,
        times: usize,
        mut compare: impl FnMut(&mut Run, &Pair, Books),
    ) {
        for fault in faults::all() {
            for spot in Spot::ALL.repeat(times) {
                let pair = self.accepted(most);
                let mut faulty = pair.clone();
                (fault.apply)(&mut faulty.book, spot);
                let faulty = self.lent(&faulty);
                compare(self, &pair, Books::from(&faulty));
            }
        }
    }

    /// The bytes of both books, at times with no locked one, or with noise in its place.
    pub fn lent(&mut self, pair: &Pair) -> Encoded {
        let mut bytes = pair.encode();
        match self.random.below(10) {
            0 => bytes.locked.clear(),
            1 => {
                bytes.locked.resize(self.random.below(300), 0);
                sparse_noise(&mut self.random, &mut bytes.locked);
            }
            _ => {}
        }
        bytes
    }

    /// Every fault with every other, also with itself, so many times, at spots drawn for
    /// each.
    pub fn each_two_faults(
        &mut self,
        times: usize,
        mut compare: impl FnMut(&mut Run, &Pair, Books),
    ) {
        for first in faults::all() {
            for second in faults::all() {
                for _ in 0..times {
                    let pair = self.accepted(Sizes::SMALL);
                    let mut faulty = pair.clone();
                    (first.apply)(&mut faulty.book, *self.random.pick(&Spot::ALL));
                    (second.apply)(&mut faulty.book, *self.random.pick(&Spot::ALL));
                    let faulty = self.lent(&faulty);
                    compare(self, &pair, Books::from(&faulty));
                }
            }
        }
    }

    /// So many small books with one bit turned.
    pub fn each_turned_book(
        &mut self,
        times: usize,
        mut compare: impl FnMut(&mut Run, &Pair, Books),
    ) {
        for _ in 0..times {
            let pair = self.accepted(Sizes::SMALL);
            let mut bytes = self.lent(&pair);
            let bit = self.random.below(8 * bytes.book.len());
            turn_bit(&mut bytes.book, bit);
            compare(self, &pair, Books::from(&bytes));
        }
    }

    /// The bytes with each of these bits turned, one at a time.
    pub fn each_turned_bit(
        &mut self,
        bytes: &mut [u8],
        bits: impl IntoIterator<Item = usize>,
        mut compare: impl FnMut(&mut Run, &[u8]),
    ) {
        for bit in bits {
            turn_bit(bytes, bit);
            compare(self, bytes);
            turn_bit(bytes, bit);
        }
    }

    /// So many bits of the bytes, drawn.
    pub fn bits_of(&mut self, bytes: &[u8], count: usize) -> Vec<usize> {
        let bits = 8 * bytes.len();
        (0..count).map(|_| self.random.below(bits)).collect()
    }
}

/// Every account of the books, 0, the highest there is, and those just beside the first.
pub fn asked_of(pair: &Pair) -> Vec<u32> {
    let mut asked = named_by(pair);
    let first = asked.first().copied();
    asked.extend([0, u32::MAX]);
    asked.extend(first.map(|of| of.wrapping_sub(1)));
    asked.extend(first.map(|of| of.wrapping_add(1)));
    asked
}
