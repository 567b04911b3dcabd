//! A book and the locked book beside it, as bytes that are lent to a call and as records.

use crate::book::Book;

/// What a call reads. Of the calls that take a statement or dispatch rows it is these
/// alone.
#[derive(Clone, Copy, Debug)]
pub struct Books<'b> {
    pub book: &'b [u8],
    /// Empty where no locked book is lent.
    pub locked: &'b [u8],
}

impl<'b> Books<'b> {
    pub fn of(book: &'b [u8], locked: &'b [u8]) -> Self {
        Books { book, locked }
    }
}

/// Bytes by themselves: no locked book is lent.
impl<'b, B: AsRef<[u8]> + ?Sized> From<&'b B> for Books<'b> {
    fn from(bytes: &'b B) -> Self {
        Books::of(bytes.as_ref(), &[])
    }
}

/// A book, and the locked book that is lent with it, if one is.
#[derive(Clone, Debug, PartialEq, Eq)]
pub struct Pair {
    pub book: Book,
    pub locked: Option<Book>,
}

impl Pair {
    pub fn of(book: Book, locked: Book) -> Self {
        Pair {
            book,
            locked: Some(locked),
        }
    }

    pub fn alone(book: Book) -> Self {
        Pair { book, locked: None }
    }

    /// The books that are read: the locked one where the other has a contract of kind 2.
    pub fn read(&self) -> impl Iterator<Item = &Book> {
        let locked = self.locked.as_ref().filter(|_| has_test(&self.book));
        [&self.book].into_iter().chain(locked)
    }

    pub fn encode(&self) -> Encoded {
        Encoded {
            book: self.book.encode(),
            locked: self.locked.as_ref().map_or_else(Vec::new, Book::encode),
        }
    }
}

/// Whether the book has a contract of kind 2.
pub fn has_test(book: &Book) -> bool {
    book.contracts.iter().any(|contract| contract.kind == 2)
}

/// The bytes of both books.
#[derive(Clone, Debug, PartialEq, Eq)]
pub struct Encoded {
    pub book: Vec<u8>,
    /// Empty where there is none.
    pub locked: Vec<u8>,
}

impl<'b> From<&'b Encoded> for Books<'b> {
    fn from(encoded: &'b Encoded) -> Self {
        Books::of(&encoded.book, &encoded.locked)
    }
}
