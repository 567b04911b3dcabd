//! Statements, read back and written again.

use std::iter::FusedIterator;
use std::slice;

use crate::calls::{self, field};
use crate::kinds::{Part, Regions};
use crate::refusal::Refusal;

/// The most lines that a statement has.
pub const MOST_LINES: usize = 2_152;

/// The bytes of the longest statement. A buffer of this length is never refused as too
/// short; [`length`](crate::length) says how long the one at hand is.
pub const LARGEST_STATEMENT: usize = 51_672;

/// The bytes of the numbers that [`lines_into`] writes for each line.
pub const LINE_NUMBERS_SIZE: usize = 40;

/// What the header of a statement says.
#[derive(Clone, Copy, Debug, Default, PartialEq, Eq, Hash)]
pub struct Heading {
    pub account: u32,
    /// As YYYYMMDD.
    pub date: u32,
    /// Of the day, 1 to 288.
    pub interval: u16,
    /// The settlement run, 1 to 99.
    pub run: u16,
    /// How many lines the statement has.
    pub lines: u16,
}

/// One line of a statement.
#[derive(Clone, Copy, Debug, PartialEq, Eq, Hash)]
pub struct Line {
    /// Of the constraint, or in the two parts of contracts of the contract.
    pub id: u32,
    pub part: Part,
    pub regions: Regions,
    /// The unit, in the three parts that are a unit's.
    pub unit: Option<u32>,
    /// In ten-thousandths of a dollar; what the account must pay is negative.
    pub amount: i64,
}

/// The numbers of a line as [`lines_into`] writes them: five, of eight bytes each.
type Numbers = [[u8; 8]; 5];

/// A statement that was read.
///
/// ```
/// # fn main() -> Result<(), Box<dyn std::error::Error>> {
/// use fervolatro::{Part, Statement};
///
/// let book = std::fs::read("../../books/worked.book")?;
/// let statement = Statement::read(&fervolatro::statement(&book, None, 7)?)?;
/// assert_eq!(statement.heading().account, 7);
/// assert_eq!(statement.lines().len(), 12);
/// let fpp = statement.lines().filter(|line| line.part == Part::UnitFpp);
/// assert_eq!(fpp.map(|line| line.amount).sum::<i64>(), 591_300 - 147_825 + 221_738);
/// # Ok(())
/// # }
/// ```
#[derive(Clone, Debug, PartialEq, Eq)]
pub struct Statement {
    heading: Heading,
    lines: Vec<Numbers>,
}

impl Statement {
    /// Reads a statement, in time linear in its length: any bytes are either a
    /// statement or refused with 14.
    pub fn read(bytes: &[u8]) -> Result<Self, Refusal> {
        let heading = header(bytes)?;
        let mut lines = vec![Numbers::default(); usize::from(heading.lines)];
        let numbers = lines.as_flattened_mut().as_flattened_mut();
        let length = lines_into(bytes, numbers)?;
        assert_eq!(length, numbers.len(), "a line is handed out as 40 bytes");
        Ok(Statement { heading, lines })
    }

    pub fn heading(&self) -> &Heading {
        &self.heading
    }

    /// The lines, in their order.
    pub fn lines(&self) -> Lines<'_> {
        Lines {
            numbers: self.lines.iter(),
        }
    }
}

impl<'s> IntoIterator for &'s Statement {
    type Item = Line;
    type IntoIter = Lines<'s>;

    fn into_iter(self) -> Lines<'s> {
        self.lines()
    }
}

/// The lines of a statement, in their order.
#[derive(Clone, Debug)]
pub struct Lines<'s> {
    numbers: slice::Iter<'s, Numbers>,
}

impl Iterator for Lines<'_> {
    type Item = Line;

    fn next(&mut self) -> Option<Line> {
        self.numbers.next().map(Line::of)
    }

    fn size_hint(&self) -> (usize, Option<usize>) {
        self.numbers.size_hint()
    }
}

impl DoubleEndedIterator for Lines<'_> {
    fn next_back(&mut self) -> Option<Line> {
        self.numbers.next_back().map(Line::of)
    }
}

impl ExactSizeIterator for Lines<'_> {}

impl FusedIterator for Lines<'_> {}

/// Reads the header of a statement alone: any bytes are either a statement or refused
/// with 14.
///
/// ```
/// let refusal = fervolatro::header(b"RCS").unwrap_err();
/// assert_eq!(refusal.to_string(), "refusal 14: bytes are not a statement");
/// ```
pub fn header(statement: &[u8]) -> Result<Heading, Refusal> {
    calls::header(statement).into_result()
}

/// Reads one line of a statement, numbered from 0. The whole statement is checked for
/// each: [`Statement::read`] is for all of them. 14 is looked for first, then 15.
///
/// ```
/// # fn main() -> Result<(), Box<dyn std::error::Error>> {
/// let book = std::fs::read("../../books/worked.book")?;
/// let statement = fervolatro::statement(&book, None, 7)?;
/// let line = fervolatro::line(&statement, 0)?;
/// assert_eq!((line.unit, line.amount), (Some(1), 591_300));
/// let refusal = fervolatro::line(&statement, 12).unwrap_err();
/// assert_eq!(refusal.to_string(), "refusal 15: pool or line number past the end");
/// # Ok(())
/// # }
/// ```
pub fn line(statement: &[u8], index: u64) -> Result<Line, Refusal> {
    calls::line(statement, index).into_result()
}

/// Writes the numbers of all lines of a statement at the front of the buffer and gives
/// how many bytes they are: id, part, regions, unit (0 for none) and amount of each, in
/// 64 bits, little-endian. Later bytes stay. A refusal leaves every byte of the buffer.
/// 14 is looked for first, then 13.
///
/// ```
/// # fn main() -> Result<(), Box<dyn std::error::Error>> {
/// let book = std::fs::read("../../books/worked.book")?;
/// let statement = fervolatro::statement(&book, None, 7)?;
/// let mut buffer = [7; 488];
/// assert_eq!(fervolatro::lines_into(&statement, &mut buffer)?, 480);
/// assert_eq!(buffer[32..40], 591_300_i64.to_le_bytes());
/// assert_eq!(buffer[480..], [7; 8]);
/// # Ok(())
/// # }
/// ```
pub fn lines_into(statement: &[u8], buffer: &mut [u8]) -> Result<usize, Refusal> {
    calls::lines(statement, buffer).into_result(buffer.len())
}

/// Writes a statement again, header and lines in their order: what is a statement
/// comes out as it was.
///
/// ```
/// # fn main() -> Result<(), Box<dyn std::error::Error>> {
/// let book = std::fs::read("../../books/worked.book")?;
/// let statement = fervolatro::statement(&book, None, 7)?;
/// assert_eq!(fervolatro::rewrite(&statement)?, statement);
/// # Ok(())
/// # }
/// ```
pub fn rewrite(statement: &[u8]) -> Result<Vec<u8>, Refusal> {
    // Longer bytes are no statement.
    let mut again = vec![0; statement.len().min(LARGEST_STATEMENT)];
    let length = rewrite_into(statement, &mut again)?;
    again.truncate(length);
    Ok(again)
}

/// Writes a statement again at the front of the buffer, and gives its length; later
/// bytes stay. A refusal leaves every byte of the buffer. 14 is looked for first, then
/// 13.
///
/// ```
/// let mut buffer = [7; 312];
/// let refusal = fervolatro::rewrite_into(b"RCS", &mut buffer).unwrap_err();
/// assert_eq!(refusal.number(), 14);
/// assert_eq!(buffer, [7; 312]);
/// ```
pub fn rewrite_into(statement: &[u8], buffer: &mut [u8]) -> Result<usize, Refusal> {
    calls::rewrite(statement, buffer).into_result(buffer.len())
}

// What the library never answers is not passed over in silence.

impl Line {
    fn of(numbers: &Numbers) -> Self {
        let [id, part, regions, unit, amount] = numbers.map(u64::from_le_bytes);
        Line::of_fields([id, part, regions, unit], amount.cast_signed())
    }

    fn of_fields([id, part, regions, unit]: [u64; 4], amount: i64) -> Self {
        Line {
            id: field(id),
            part: Part::from_number(field(part)).expect("parts are 1 to 10"),
            regions: Regions::from_mask(field(regions)).expect("regions are 1 to 31"),
            unit: (unit != 0).then(|| field(unit)),
            amount,
        }
    }
}

impl calls::Heading {
    /// The answer as a result. A header has place 0, a refusal no header.
    fn into_result(self) -> Result<Heading, Refusal> {
        let fields = [self.account, self.date, self.interval, self.run, self.lines];
        calls::accepted(self.refusal, self.place, fields == [0; 5])?;
        Ok(Heading {
            account: field(self.account),
            date: field(self.date),
            interval: field(self.interval),
            run: field(self.run),
            lines: field(self.lines),
        })
    }
}

impl calls::Entry {
    /// The answer as a result. A line has place 0, a refusal no line.
    fn into_result(self) -> Result<Line, Refusal> {
        let fields = [self.id, self.part, self.regions, self.unit];
        let is_empty = fields == [0; 4] && self.amount == 0;
        calls::accepted(self.refusal, self.place, is_empty)?;
        Ok(Line::of_fields(fields, self.amount))
    }
}
