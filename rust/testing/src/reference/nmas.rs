//! The reconciliation file for restart contracts, written and read back: refusals 15 and
//! 19 beside those of the statement. The sentences are those of the request (02, Req 05),
//! the fields those of document 003, Table 1, with the values of document 01.

use super::check::{period_is_in_range, read, ENERGY_LIMIT, MONEY_LIMIT, WHOLE};
use super::listing::decimal;
use super::refuse_unless;
use super::statement::{in_64_bits, lend, settled, Settlement, Share};
use crate::book::Contract;
use crate::{Books, NmasRow, Refusal};

/// "PAYMENTTYPE is one of that document's three as the caller chooses": "Valid values are:
/// AVAILABILITY, ENABLEMENT, COMPENSATION".
const PAYMENT_TYPES: [&str; 3] = ["AVAILABILITY", "ENABLEMENT", "COMPENSATION"];

/// "In the order NSW1, QLD1, SA1, TAS1, VIC1."
const REGIONS: [&str; 5] = ["NSW1", "QLD1", "SA1", "TAS1", "VIC1"];

/// "Refusals: writing gives those of the statement call, 13 by the text's length."
pub fn nmas<'b>(
    books: impl Into<Books<'b>>,
    account: u32,
    payment_type: u64,
    buffer: &mut [u8],
) -> Result<usize, Refusal> {
    lend(&whole_nmas(books, account, payment_type)?, buffer)
}

/// The text by itself, where no buffer is lent. A type that there is not is looked for
/// before all else.
pub fn whole_nmas<'b>(
    books: impl Into<Books<'b>>,
    account: u32,
    payment_type: u64,
) -> Result<Vec<u8>, Refusal> {
    refuse_unless(15, payment_type < 3)?;
    let read = read(books)?;
    let (settlement, _) = settled(&read, account)?;
    let rows = rows(&settlement, payment_type as usize);
    let text: String = rows.iter().map(spelled).collect();
    Ok(text.into_bytes())
}

/// "One line for each contract and benefiting region in statement order."
fn rows(settlement: &Settlement, payment_type: usize) -> Vec<NmasRow> {
    let contracts = settlement.book.contracts.iter();
    let rows = contracts.flat_map(|contract| {
        let shares = settlement.shares(contract).into_iter();
        shares.map(|share| row(settlement, payment_type, contract, share))
    });
    rows.collect()
}

/// "Version is the run, period the interval." "Recovery amounts keep our lines' sign."
/// 003: "The total Payment Amount to recover from all benefitting regions"; "Post IESS:
/// (RECOVERYAMOUNT_ACE + RECOVERYAMOUNT_ASOE)".
fn row(settlement: &Settlement, payment_type: usize, contract: &Contract, share: Share) -> NmasRow {
    let header = &settlement.book.header;
    NmasRow {
        date: header.date.into(),
        run: header.run.into(),
        interval: header.interval.into(),
        account: settlement.account.into(),
        contract: contract.id.into(),
        payment_type,
        region: share.region,
        factor: contract.factors[share.region].into(),
        payment: contract.payment,
        recovery: in_64_bits(share.by_ace + share.by_asoe),
        own_ace: in_64_bits(share.own.ace),
        region_ace: in_64_bits(share.total.ace),
        own_asoe: in_64_bits(share.own.asoe),
        region_asoe: in_64_bits(share.total.asoe),
        by_ace: in_64_bits(share.by_ace),
        by_asoe: in_64_bits(share.by_asoe),
    }
}

/// "Numbers have four decimals for money, three for MWh, six for the benefit factor." "The
/// date YYYYMMDD; lines end in a line feed; no spare leading zeros, no -0." A row with
/// numbers out of their ranges is spelled too.
pub fn spelled(row: &NmasRow) -> String {
    let fields = [
        row.date.to_string(),
        row.run.to_string(),
        row.interval.to_string(),
        row.account.to_string(),
        "RESTART".to_owned(),
        row.contract.to_string(),
        PAYMENT_TYPES[row.payment_type].to_owned(),
        REGIONS[row.region].to_owned(),
        decimal(row.factor, 6),
        decimal(row.payment, 4),
        decimal(row.recovery, 4),
        decimal(row.own_ace, 3),
        decimal(row.region_ace, 3),
        decimal(row.own_asoe, 3),
        decimal(row.region_asoe, 3),
        decimal(row.by_ace, 4),
        decimal(row.by_asoe, 4),
    ];
    fields.join(",") + "\n"
}

pub fn nmas_rows(text: &[u8]) -> Result<usize, Refusal> {
    Ok(read_nmas(text)?.len())
}

/// 19 is looked for first, then 15: a number past the end.
pub fn nmas_row(text: &[u8], index: u64) -> Result<NmasRow, Refusal> {
    nmas_row_of(&read_nmas(text)?, index)
}

/// The row of that number, of a text that was read.
pub fn nmas_row_of(rows: &[NmasRow], index: u64) -> Result<NmasRow, Refusal> {
    refuse_unless(15, index < rows.len() as u64)?;
    Ok(rows[index as usize])
}

/// "Reading gives 19, ... at its line, from 0": the first that is not a row. The last line
/// ends in a line feed too.
pub fn read_nmas(text: &[u8]) -> Result<Vec<NmasRow>, Refusal> {
    let lines = text.split_inclusive(|&byte| byte == b'\n');
    let rows = lines.enumerate().map(|(place, line)| {
        let refused = Refusal { number: 19, place };
        row_of(line).ok_or(refused)
    });
    rows.collect()
}

/// "One row has one spelling": what a line says is a row if that is spelled as the line.
fn row_of(line: &[u8]) -> Option<NmasRow> {
    let line = std::str::from_utf8(line).ok()?;
    let row = taken_apart(line.strip_suffix('\n')?)?;
    (keeps_rules(&row) && spelled(&row) == line).then_some(row)
}

/// "Comma-separated text", "with the post-2024 fields of source document 003: its first
/// ten, RECOVERY_AMOUNT and its last six".
fn taken_apart(line: &str) -> Option<NmasRow> {
    let fields: Vec<&str> = line.split(',').collect();
    let [date, run, interval, account, _, contract, payment_type, region, numbers @ ..] =
        <[&str; 17]>::try_from(fields).ok()?;
    let mut numbers = numbers.into_iter().map(without_point);
    let mut next = || numbers.next().flatten();
    Some(NmasRow {
        date: date.parse().ok()?,
        run: run.parse().ok()?,
        interval: interval.parse().ok()?,
        account: account.parse().ok()?,
        contract: contract.parse().ok()?,
        payment_type: PAYMENT_TYPES
            .iter()
            .position(|&word| word == payment_type)?,
        region: REGIONS.iter().position(|&word| word == region)?,
        factor: next()?,
        payment: next()?,
        recovery: next()?,
        own_ace: next()?,
        region_ace: next()?,
        own_asoe: next()?,
        region_asoe: next()?,
        by_ace: next()?,
        by_asoe: next()?,
    })
}

/// A number with decimals, in units of the last one. Where the point stood, the spelling
/// will tell.
fn without_point(number: &str) -> Option<i64> {
    number.replacen('.', "", 1).parse().ok()
}

/// Not "out of the book's or statement's ranges, a benefit factor of 0, or RECOVERY_AMOUNT
/// not the sum of the last two".
fn keeps_rules(row: &NmasRow) -> bool {
    let names = 1..=i64::from(u32::MAX);
    let (consumed, sent_out) = (-i64::from(ENERGY_LIMIT)..=0, 0..=i64::from(ENERGY_LIMIT));
    let recovered = -MONEY_LIMIT..=0;
    has_period(row)
        && names.contains(&row.account)
        && names.contains(&row.contract)
        && (1..=i64::from(WHOLE)).contains(&row.factor)
        && (0..=MONEY_LIMIT).contains(&row.payment)
        && consumed.contains(&row.own_ace)
        && consumed.contains(&row.region_ace)
        && sent_out.contains(&row.own_asoe)
        && sent_out.contains(&row.region_asoe)
        && recovered.contains(&row.by_ace)
        && recovered.contains(&row.by_asoe)
        && row.recovery == row.by_ace + row.by_asoe
}

fn has_period(row: &NmasRow) -> bool {
    match (
        row.interval.try_into(),
        row.date.try_into(),
        row.run.try_into(),
    ) {
        (Ok(interval), Ok(date), Ok(run)) => period_is_in_range(interval, date, run),
        _ => false,
    }
}
