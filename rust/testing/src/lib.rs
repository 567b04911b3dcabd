//! What the Fervolatro library is tested and measured with.
//!
//! [`library`] asks the library, through the package for users, for plain numbers.
//! [`mod@reference`] is a second, independent statement of the same rules, written from
//! the scope document (01) and the requests that have landed (02) alone; [`book`],
//! [`statement`] and [`dispatch`] have the records and their bytes, [`books`] a book with
//! the locked one beside it, [`requests`] what books, statements, dispatch rows and
//! reconciliation files are made with, [`harness`] what compares the two on some hundred
//! thousand of each. [`fast`] is the same once more, written for speed, for the benchmark
//! to hold the library against.

use std::path::PathBuf;

mod answers;
pub mod book;
pub mod books;
pub mod dispatch;
pub mod fast;
pub mod field;
pub mod harness;
pub mod library;
pub mod reference;
pub mod requests;
pub mod statement;

pub use answers::{Balance, Cutoff, Entry, Heading, NmasRow, Refusal};
pub use books::Books;

/// A file or a folder of the repository, by its path from the root.
pub fn in_repository(path: &str) -> PathBuf {
    PathBuf::from(env!("CARGO_MANIFEST_DIR"))
        .join("../..")
        .join(path)
}
