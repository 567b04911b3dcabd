//! Statements read back, line by line and all lines at once, and written again:
//! refusals 13 to 15.

use super::check::period_is_in_range;
use super::refuse_unless;
use super::statement::{is_within_limit, lend, write};
use crate::field::Field;
use crate::statement::{Header, Line, Statement};
use crate::{Entry, Heading, Refusal};

/// "A statement is read exactly when" the rules below hold; else 14: "bytes are not
/// a statement".
pub fn read(bytes: &[u8]) -> Result<Statement, Refusal> {
    refuse_unless(14, bytes.len() >= Header::SIZE)?;
    let header = Header::read(&mut &bytes[..]);
    refuse_unless(14, header_keeps_rules(&header))?;
    refuse_unless(14, bytes.len() == 24 + 24 * usize::from(header.lines))?;
    let statement = Statement::decode(bytes);
    refuse_unless(14, statement.lines.iter().all(line_keeps_rules))?;
    Ok(statement)
}

pub fn header(bytes: &[u8]) -> Result<Heading, Refusal> {
    Ok(read(bytes)?.header.heading())
}

/// "Asking for one line, numbered from 0, looks for 14, then 15": "line number past
/// the end".
pub fn line(bytes: &[u8], index: u64) -> Result<Entry, Refusal> {
    let statement = read(bytes)?;
    refuse_unless(15, index < u64::from(statement.header.lines))?;
    let index = usize::try_from(index).expect("it is below 2,152");
    Ok(statement.lines[index].entry())
}

/// Every line as [`line()`] has it, in their order.
pub fn lines(bytes: &[u8]) -> Result<Vec<Entry>, Refusal> {
    Ok(read(bytes)?.lines.iter().map(Line::entry).collect())
}

/// The numbers of every line one behind the other, each in 64 bits, into a lent
/// buffer: as for a statement that is written again, "14 is looked for first, then
/// 13", and "later bytes stay".
pub fn unpack(bytes: &[u8], buffer: &mut [u8]) -> Result<usize, Refusal> {
    let lines = lines(bytes)?.into_iter();
    let numbers: Vec<u8> = lines.flat_map(numbers_of).flatten().collect();
    lend(&numbers, buffer)
}

/// "id u32; part u8; regions u8; ... unit u32; ... amount i64", "little-endian".
fn numbers_of(entry: Entry) -> [[u8; 8]; 5] {
    [
        i64::from(entry.id),
        i64::from(entry.part),
        i64::from(entry.regions),
        i64::from(entry.unit),
        entry.amount,
    ]
    .map(i64::to_le_bytes)
}

/// "A read statement can be written again, header and lines in their order, into a
/// lent buffer; 14 is looked for first, then 13."
pub fn rewrite(bytes: &[u8], buffer: &mut [u8]) -> Result<usize, Refusal> {
    write(&read(bytes)?, buffer)
}

/// The statement by itself, where no buffer is lent.
pub fn whole_rewrite(bytes: &[u8]) -> Result<Vec<u8>, Refusal> {
    Ok(read(bytes)?.encode())
}

/// "Its mark and version are right, its header fields in range, it has 0 to 2,152
/// lines, ... reserved bytes are 0, account and ids are from 1." "Header, 24 bytes:
/// RCS; reserved byte; 16-bit version 1; interval, date and run as in the book; ...
/// reserved u32."
fn header_keeps_rules(header: &Header) -> bool {
    header.mark == *b"RCS"
        && header.reserved == 0
        && header.version == 1
        && period_is_in_range(header.interval, header.date, header.run)
        && header.lines <= 2_152
        && header.account >= 1
        && header.reserved_end == 0
}

/// "Reserved bytes are 0, account and ids are from 1, parts are 1 to 10, regions 1
/// to 31 (one bit for parts 9 and 10), unit non-zero exactly in parts 3 to 5,
/// amounts within 50,000,000,000 either way and not positive outside parts 3 and
/// 6. Line order isn't judged."
fn line_keeps_rules(line: &Line) -> bool {
    line.reserved == 0
        && line.reserved_mid == 0
        && line.id >= 1
        && (1..=10).contains(&line.part)
        && (1..=31).contains(&line.regions)
        && (!matches!(line.part, 9 | 10) || line.regions.count_ones() == 1)
        && (line.unit != 0) == matches!(line.part, 3..=5)
        && is_within_limit(line)
        && (line.amount <= 0 || matches!(line.part, 3 | 6))
}
