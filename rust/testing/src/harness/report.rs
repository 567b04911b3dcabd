//! What the random tests have in common: the seed, and what they print.

use std::env;
use std::fmt::Write as _;
use std::io::{self, Write as _};

use crate::Books;

const DEFAULT_SEED: u64 = 20_250_608;

/// Bytes up to this length are printed whole.
const SHORT: usize = 1_024;

/// The seed of a run: that of the environment variable FERVOLATRO_SEED if it is
/// set, else always the same.
pub fn seed() -> u64 {
    match env::var("FERVOLATRO_SEED") {
        Ok(text) => text.parse().expect("FERVOLATRO_SEED is a whole number"),
        Err(_) => DEFAULT_SEED,
    }
}

/// What a call is about, for a message: a statement, dispatch rows or a book, and the
/// locked book if one is lent. In hexadecimal digits what is short.
pub fn shown<'b>(books: impl Into<Books<'b>>) -> String {
    let Books { book, locked } = books.into();
    if locked.is_empty() {
        return digits(book);
    }
    format!("{}, locked {}", digits(book), digits(locked))
}

fn digits(bytes: &[u8]) -> String {
    if bytes.len() > SHORT {
        return format!("{} bytes", bytes.len());
    }
    let mut shown = String::from("bytes ");
    for byte in bytes {
        write!(shown, "{byte:02x}").expect("a string takes it");
    }
    shown
}

/// Prints straight to the standard output, which the test harness does not hold
/// back.
pub fn print(report: &str) {
    io::stdout()
        .write_all(report.as_bytes())
        .expect("the report can be written");
}
