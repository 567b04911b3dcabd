//! What the tests build books, statements, dispatch rows and reconciliation files with:
//! repeatable random numbers, the worked book, accepted books of every size, locked books
//! to go with them, the accounts in them, statements of any lines, good dispatch rows,
//! files of any rows, and the ways in which each can be wrong, or right but different.

pub mod accounts;
pub mod chosen;
pub mod damage;
pub mod dispatch;
pub mod edges;
pub mod faults;
pub mod generate;
pub mod halves;
pub mod locked;
pub mod neighbours;
pub mod nmas;
pub mod random;
pub mod statements;
pub mod worked;
