//! The questions that are put to both sides, and who answers them.

use crate::fast::{self, Fields};
use crate::reference::Kind;
use crate::{library, reference, Balance, Books, Cutoff, Entry, Heading, NmasRow, Refusal};

/// A call, with what it takes beside the bytes: an account, a pool, the index of a stage, a
/// line or a row, a constraint's id and a service, whose file it is, and how many bytes the
/// buffer has.
#[derive(Clone, Copy, Debug)]
pub enum Call {
    Check,
    Length { account: u32 },
    Statement { account: u32, room: usize },
    WholeStatement { account: u32 },
    Balance { pool: u64 },
    Cutoff { pool: u64, index: u64 },
    AllCutoffs { pool: u64 },
    Accounts,
    Pools,
    Header,
    Line { index: u64 },
    Lines,
    Unpack { room: usize },
    Rewrite { room: usize },
    WholeRewrite,
    Payment { service: u64 },
    BaseCost { id: u32, service: u64 },
    Nmas { file: File, room: usize },
    WholeNmas { file: File },
    NmasRows,
    NmasRow { index: u64 },
}

/// Whose reconciliation file is asked for, and for which payment type.
#[derive(Clone, Copy, Debug)]
pub struct File {
    pub account: u32,
    pub payment_type: u64,
}

impl Call {
    /// How many bytes the buffer has; none where the call takes no buffer.
    pub fn room(self) -> usize {
        match self {
            Call::Statement { room, .. }
            | Call::Unpack { room }
            | Call::Rewrite { room }
            | Call::Nmas { room, .. } => room,
            _ => 0,
        }
    }

    /// Whose statement is asked for, if one is.
    pub(super) fn statement_of(self) -> Option<u32> {
        match self {
            Call::Statement { account, .. } | Call::WholeStatement { account } => Some(account),
            _ => None,
        }
    }

    /// The name under which its answers are counted.
    pub fn name(self) -> &'static str {
        match self {
            Call::Check => "check",
            Call::Length { .. } => "length",
            Call::Statement { .. } => "statement",
            Call::WholeStatement { .. } => "whole statement",
            Call::Balance { .. } => "balance",
            Call::Cutoff { .. } => "cut-off",
            Call::AllCutoffs { .. } => "all cut-offs",
            Call::Accounts => "accounts",
            Call::Pools => "pools",
            Call::Header => "header",
            Call::Line { .. } => "line",
            Call::Lines => "lines",
            Call::Unpack { .. } => "unpack",
            Call::Rewrite { .. } => "rewrite",
            Call::WholeRewrite => "whole rewrite",
            Call::Payment { .. } => "payment",
            Call::BaseCost { .. } => "base cost",
            Call::Nmas { .. } => "file",
            Call::WholeNmas { .. } => "whole file",
            Call::NmasRows => "rows of a file",
            Call::NmasRow { .. } => "row of a file",
        }
    }
}

/// What a call gives that is not refused.
#[derive(Clone, Debug, PartialEq)]
pub enum Answer {
    Nothing,
    Length(usize),
    Bytes(Vec<u8>),
    Balance(Balance),
    Cutoff(Cutoff),
    Cutoffs(Vec<Cutoff>),
    Accounts(Vec<u32>),
    /// By their numbers: the id of the constraint or contract, and what the pool is.
    Pools(Vec<(u32, Kind)>),
    Heading(Heading),
    Line(Entry),
    Lines(Vec<Entry>),
    Amount(u64),
    Rows(usize),
    Row(NmasRow),
}

/// What a call is answered by.
pub type Given = Result<Answer, Refusal>;

/// One that answers: the call, the bytes it is about, the buffer it may write. A
/// statement, dispatch rows and a file's text stand in the place of the book.
#[derive(Clone, Copy)]
pub struct Side {
    pub name: &'static str,
    pub ask: fn(Call, Books, &mut [u8]) -> Given,
}

/// A side that has every call, under the same names.
macro_rules! side {
    ($of:ident) => {
        Side {
            name: stringify!($of),
            ask: |call, books, buffer| match call {
                Call::Check => $of::check(books).map(|()| Answer::Nothing),
                Call::Length { account } => $of::length(books, account).map(Answer::Length),
                Call::Statement { account, .. } => {
                    $of::statement(books, account, buffer).map(Answer::Length)
                }
                Call::WholeStatement { account } => {
                    $of::whole_statement(books, account).map(Answer::Bytes)
                }
                Call::Balance { pool } => $of::balance(books, pool).map(Answer::Balance),
                Call::Cutoff { pool, index } => $of::cutoff(books, pool, index).map(Answer::Cutoff),
                Call::AllCutoffs { pool } => $of::all_cutoffs(books, pool).map(Answer::Cutoffs),
                Call::Accounts => $of::accounts(books).map(Answer::Accounts),
                Call::Pools => $of::pools_by_number(books).map(Answer::Pools),
                Call::Header => $of::header(books.book).map(Answer::Heading),
                Call::Line { index } => $of::line(books.book, index).map(Answer::Line),
                Call::Lines => $of::lines(books.book).map(Answer::Lines),
                Call::Unpack { .. } => $of::unpack(books.book, buffer).map(Answer::Length),
                Call::Rewrite { .. } => $of::rewrite(books.book, buffer).map(Answer::Length),
                Call::WholeRewrite => $of::whole_rewrite(books.book).map(Answer::Bytes),
                Call::Payment { service } => $of::payment(books.book, service).map(Answer::Amount),
                Call::BaseCost { id, service } => {
                    $of::base_cost(books.book, id, service).map(Answer::Amount)
                }
                Call::Nmas { file, .. } => {
                    $of::nmas(books, file.account, file.payment_type, buffer).map(Answer::Length)
                }
                Call::WholeNmas { file } => {
                    $of::whole_nmas(books, file.account, file.payment_type).map(Answer::Bytes)
                }
                Call::NmasRows => $of::nmas_rows(books.book).map(Answer::Rows),
                Call::NmasRow { index } => $of::nmas_row(books.book, index).map(Answer::Row),
            },
        }
    };
}

pub const LIBRARY: Side = side!(library);

pub const REFERENCE: Side = side!(reference);

/// The fast version, which has the calls that are timed.
pub const FAST: Side = Side {
    name: "fast",
    ask: |call, books, buffer| match call {
        Call::Check => fast::check(books).map(|()| Answer::Nothing),
        Call::Length { account } => fast::length(books, account).map(Answer::Length),
        Call::Statement { account, .. } => {
            fast::statement(books, account, buffer).map(Answer::Length)
        }
        Call::Balance { pool } => fast::balance(books, pool).map(Answer::Balance),
        Call::Cutoff { pool, index } => fast::cutoff(books, pool, index).map(Answer::Cutoff),
        Call::Unpack { .. } => fast_unpack(books.book, buffer).map(Answer::Length),
        Call::Payment { service } => fast::payment(books.book, service).map(Answer::Amount),
        Call::BaseCost { id, service } => {
            fast::base_cost(books.book, id, service).map(Answer::Amount)
        }
        Call::Nmas { file, .. } => {
            fast::nmas(books, file.account, file.payment_type, buffer).map(Answer::Length)
        }
        Call::NmasRows => fast::nmas_rows(books.book).map(Answer::Rows),
        Call::NmasRow { index } => fast::nmas_row(books.book, index).map(Answer::Row),
        _ => panic!("the fast version has no {}", call.name()),
    },
};

/// The fast version writes numbers, not bytes: the buffer's go in and come out again.
fn fast_unpack(statement: &[u8], buffer: &mut [u8]) -> Result<usize, Refusal> {
    let slots = buffer.as_chunks_mut::<40>().0;
    let mut fields: Vec<Fields> = slots.iter().map(Fields::of_bytes).collect();
    let count = fast::lines(statement, &mut fields)?;
    for (slot, fields) in slots.iter_mut().zip(&fields) {
        *slot = fields.bytes();
    }
    Ok(40 * count)
}
