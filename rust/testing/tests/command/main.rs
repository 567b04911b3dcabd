//! Runs `bin/listing` as a person would, and looks at all that a run shows: what it
//! prints, what it says on the standard error, and its exit status. What the listing's
//! text has to be is for `listing.rs`; here it is taken from the reference, and the
//! questions are which account and which book are asked for, what is no question at
//! all, and when the program is built.

mod arguments;
mod books;
mod building;
mod output;
mod places;
mod run;
