//! The Fervolatro library: books of one five-minute trading interval are checked and
//! settled, statements are read back, costs are made from dispatch rows, and the
//! reconciliation file for restart contracts (NMAS) is written and read back.
//!
//! A book, a statement, dispatch rows and a file are bytes; `docs/BOOK.md` of the
//! repository has their layout and the rules. Every call answers any bytes, and is proved
//! to answer what the rules say.
//!
//! Every call on a book takes the locked book as well, which contracts of kind 2 (test
//! payments) are shared by: `Some` of its bytes, or `None`. It is read where the book has
//! such a contract, and then wanted; where it has none, whatever is lent counts for
//! nothing.
//!
//! - [`check`] says whether a book is accepted, and if not, why and where.
//! - [`statement()`] gives an account's statement, [`length`] how many bytes it has,
//!   [`accounts`] the accounts there are.
//! - [`balance`] gives the balance of a pool, [`pools`] the pools there are.
//! - [`cutoffs`] gives what rounding cut off in each stage of a pool, [`cutoff`] one of
//!   them: why a balance is not nil.
//! - [`Statement::read`] reads a statement: its heading, and its lines one by one.
//! - [`payment`] gives a service's payment, [`base_cost`] a constraint's base cost, from
//!   dispatch rows.
//! - [`nmas`] gives an account's reconciliation file, [`nmas_rows`] how many rows such a
//!   text has, [`nmas_row`] one of them.
//!
//! Where nothing may be allocated, [`statement_into`], [`header`], [`line()`],
//! [`lines_into`], [`rewrite_into`] and [`nmas_into`] do the same with bytes that are lent
//! to them; [`length`] says how many a statement takes.
//!
//! ```
//! # fn main() -> Result<(), Box<dyn std::error::Error>> {
//! let book = std::fs::read("../../books/worked.book")?;
//! for account in fervolatro::accounts(&book, None)? {
//!     let statement = fervolatro::statement(&book, None, account)?;
//!     for line in &fervolatro::Statement::read(&statement)? {
//!         println!("{account} {} {} {}", line.id, line.part, line.amount);
//!     }
//! }
//! # Ok(())
//! # }
//! ```

mod book;
#[cfg(all(
    feature = "bridge",
    not(any(target_arch = "x86_64", feature = "native"))
))]
mod bridge;
mod calls;
mod cutoff;
mod dispatch;
mod kinds;
mod nmas;
mod numbered;
mod refusal;
mod statement;

pub use book::{
    accounts, balance, check, length, pools, statement, statement_into, Balance, Pool, PoolKind,
    Source, LARGEST_BOOK,
};
pub use cutoff::{cutoff, cutoffs, Cutoff};
pub use dispatch::{base_cost, payment, DISPATCH_ROW_SIZE};
pub use kinds::{Mode, Part, PaymentType, Region, Regions, Service, Stage};
pub use nmas::{nmas, nmas_into, nmas_row, nmas_rows, NmasRow, LARGEST_NMAS, MOST_NMAS_ROWS};
pub use refusal::{Reason, Refusal};
pub use statement::{
    header, line, lines_into, rewrite, rewrite_into, Heading, Line, Lines, Statement,
    LARGEST_STATEMENT, LINE_NUMBERS_SIZE, MOST_LINES,
};
