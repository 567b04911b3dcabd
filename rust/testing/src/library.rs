//! The library, asked through the package for users, its answers in plain numbers.

use fervolatro::PoolKind;

use crate::reference::Kind;
use crate::{Balance, Books, Cutoff, Entry, Heading, NmasRow, Refusal};

pub fn check<'b>(books: impl Into<Books<'b>>) -> Result<(), Refusal> {
    let (book, locked) = lent(books);
    fervolatro::check(book, locked).map_err(plain)
}

pub fn length<'b>(books: impl Into<Books<'b>>, account: u32) -> Result<usize, Refusal> {
    let (book, locked) = lent(books);
    fervolatro::length(book, locked, account).map_err(plain)
}

pub fn statement<'b>(
    books: impl Into<Books<'b>>,
    account: u32,
    buffer: &mut [u8],
) -> Result<usize, Refusal> {
    let (book, locked) = lent(books);
    fervolatro::statement_into(book, locked, account, buffer).map_err(plain)
}

pub fn whole_statement<'b>(books: impl Into<Books<'b>>, account: u32) -> Result<Vec<u8>, Refusal> {
    let (book, locked) = lent(books);
    fervolatro::statement(book, locked, account).map_err(plain)
}

pub fn balance<'b>(books: impl Into<Books<'b>>, pool: u64) -> Result<Balance, Refusal> {
    let (book, locked) = lent(books);
    fervolatro::balance(book, locked, pool).map_err(plain)
}

pub fn cutoff<'b>(books: impl Into<Books<'b>>, pool: u64, index: u64) -> Result<Cutoff, Refusal> {
    let (book, locked) = lent(books);
    let cutoff = fervolatro::cutoff(book, locked, pool, index);
    cutoff.map(cutoff_numbers).map_err(plain)
}

pub fn all_cutoffs<'b>(books: impl Into<Books<'b>>, pool: u64) -> Result<Vec<Cutoff>, Refusal> {
    let (book, locked) = lent(books);
    let cutoffs = fervolatro::cutoffs(book, locked, pool).map_err(plain)?;
    Ok(cutoffs.into_iter().map(cutoff_numbers).collect())
}

pub fn accounts<'b>(books: impl Into<Books<'b>>) -> Result<Vec<u32>, Refusal> {
    let (book, locked) = lent(books);
    fervolatro::accounts(book, locked).map_err(plain)
}

pub fn pools_by_number<'b>(books: impl Into<Books<'b>>) -> Result<Vec<(u32, Kind)>, Refusal> {
    let (book, locked) = lent(books);
    let pools = fervolatro::pools(book, locked).map_err(plain)?;
    let numbers = pools.iter().map(|pool| pool.number);
    assert!(numbers.eq(0..pools.len() as u64), "{pools:?}");
    let listed = pools.iter().map(|pool| (pool.source.id(), kind(pool.kind)));
    Ok(listed.collect())
}

/// The books as the package for users takes them.
fn lent<'b>(books: impl Into<Books<'b>>) -> (&'b [u8], Option<&'b [u8]>) {
    let Books { book, locked } = books.into();
    (book, (!locked.is_empty()).then_some(locked))
}

pub fn header(statement: &[u8]) -> Result<Heading, Refusal> {
    fervolatro::header(statement).map_err(plain)
}

pub fn line(statement: &[u8], index: u64) -> Result<Entry, Refusal> {
    let line = fervolatro::line(statement, index);
    line.map(entry).map_err(plain)
}

pub fn lines(statement: &[u8]) -> Result<Vec<Entry>, Refusal> {
    let statement = fervolatro::Statement::read(statement).map_err(plain)?;
    let heading = statement.heading();
    assert_eq!(statement.lines().len(), usize::from(heading.lines));
    Ok(statement.lines().map(entry).collect())
}

pub fn unpack(statement: &[u8], buffer: &mut [u8]) -> Result<usize, Refusal> {
    fervolatro::lines_into(statement, buffer).map_err(plain)
}

pub fn rewrite(statement: &[u8], buffer: &mut [u8]) -> Result<usize, Refusal> {
    fervolatro::rewrite_into(statement, buffer).map_err(plain)
}

pub fn whole_rewrite(statement: &[u8]) -> Result<Vec<u8>, Refusal> {
    fervolatro::rewrite(statement).map_err(plain)
}

pub fn payment(rows: &[u8], service: u64) -> Result<u64, Refusal> {
    fervolatro::payment(rows, service).map_err(plain)
}

pub fn base_cost(rows: &[u8], id: u32, service: u64) -> Result<u64, Refusal> {
    fervolatro::base_cost(rows, id, service).map_err(plain)
}

pub fn nmas<'b>(
    books: impl Into<Books<'b>>,
    account: u32,
    payment_type: u64,
    buffer: &mut [u8],
) -> Result<usize, Refusal> {
    let (book, locked) = lent(books);
    fervolatro::nmas_into(book, locked, account, payment_type, buffer).map_err(plain)
}

pub fn whole_nmas<'b>(
    books: impl Into<Books<'b>>,
    account: u32,
    payment_type: u64,
) -> Result<Vec<u8>, Refusal> {
    let (book, locked) = lent(books);
    fervolatro::nmas(book, locked, account, payment_type).map_err(plain)
}

pub fn nmas_rows(text: &[u8]) -> Result<usize, Refusal> {
    fervolatro::nmas_rows(text).map_err(plain)
}

pub fn nmas_row(text: &[u8], index: u64) -> Result<NmasRow, Refusal> {
    fervolatro::nmas_row(text, index)
        .map(nmas_numbers)
        .map_err(plain)
}

fn kind(kind: PoolKind) -> Kind {
    match kind {
        PoolKind::Contingency => Kind::Contingency,
        PoolKind::Fpp => Kind::Fpp,
        PoolKind::Used => Kind::Used,
        PoolKind::Unused => Kind::Unused,
        PoolKind::Contract => Kind::Contract,
    }
}

fn plain(refusal: fervolatro::Refusal) -> Refusal {
    Refusal {
        number: refusal.number(),
        place: refusal.place,
    }
}

fn cutoff_numbers(of: fervolatro::Cutoff) -> Cutoff {
    Cutoff {
        stage: of.stage.number(),
        region: of.region.map_or(0, fervolatro::Region::number),
        divisor: of.divisor,
        cut: of.cut,
    }
}

fn entry(line: fervolatro::Line) -> Entry {
    Entry {
        id: line.id,
        part: line.part.number(),
        regions: line.regions.mask(),
        unit: line.unit.unwrap_or(0),
        amount: line.amount,
    }
}

fn nmas_numbers(row: fervolatro::NmasRow) -> NmasRow {
    NmasRow {
        date: row.date.into(),
        run: row.run.into(),
        interval: row.interval.into(),
        account: row.account.into(),
        contract: row.contract.into(),
        payment_type: row.payment_type.number().into(),
        region: row.region.number().into(),
        factor: row.factor.into(),
        payment: i64::try_from(row.payment).expect("a payment is at most 50,000,000,000"),
        recovery: row.recovery,
        own_ace: row.own_ace.into(),
        region_ace: row.region_ace.into(),
        own_asoe: row.own_asoe.into(),
        region_asoe: row.region_asoe.into(),
        by_ace: row.by_ace,
        by_asoe: row.by_asoe,
    }
}
