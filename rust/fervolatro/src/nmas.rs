//! The reconciliation file for restart contracts (NMAS), written and read back.

use crate::calls::{self, field, Books};
use crate::kinds::{PaymentType, Region};
use crate::refusal::Refusal;

/// The bytes of the longest file, 80 lines of at most 171. A buffer of this length is
/// never refused as too short.
pub const LARGEST_NMAS: usize = 13_680;

/// The most lines of a file that is written: five benefiting regions of 16 contracts. A
/// text that is read may have more.
pub const MOST_NMAS_ROWS: usize = 80;

/// The reconciliation file of an account: a line of text for each contract and each
/// region that benefits, in the order of the statement. One without such lines is empty.
///
/// The payment type is written as it is asked for; the book has none. A number past the
/// three is refused with 15, before all else; then come the refusals of a
/// [`statement()`](crate::statement()).
///
/// ```
/// # fn main() -> Result<(), Box<dyn std::error::Error>> {
/// use fervolatro::PaymentType;
///
/// let mut book = std::fs::read("../../books/worked.book")?;
/// book[20] = 1; // one contract, at the end
/// let mut contract = [0; 36];
/// contract[0] = 9; // its id
/// contract[4] = 1; // its kind
/// contract[8..16].copy_from_slice(&1_000_000_u64.to_le_bytes()); // $100
/// contract[16..20].copy_from_slice(&1_000_000_u32.to_le_bytes()); // all for NSW1
/// book.extend(contract);
/// let text = fervolatro::nmas(&book, None, 7, PaymentType::Availability)?;
/// // Half of the payment by 15,000 of 1,015,000 kWh, half by 5,000 of 585,000.
/// let line = "20250608,1,1,7,RESTART,9,AVAILABILITY,NSW1,1.000000,100.0000,\
///             -1.1663,-15.000,-1015.000,5.000,585.000,-0.7389,-0.4274\n";
/// assert_eq!(text, line.as_bytes());
/// let refusal = fervolatro::nmas(&book, None, 7, 3_u64).unwrap_err();
/// assert_eq!(refusal.reason, fervolatro::Reason::PastEnd);
/// # Ok(())
/// # }
/// ```
pub fn nmas(
    book: &[u8],
    locked: Option<&[u8]>,
    account: u32,
    payment_type: impl Into<u64>,
) -> Result<Vec<u8>, Refusal> {
    let mut text = vec![0; LARGEST_NMAS];
    let length = nmas_into(book, locked, account, payment_type, &mut text)?;
    text.truncate(length);
    Ok(text)
}

/// Writes an account's reconciliation file at the front of the buffer and gives its
/// length; later bytes stay. A refusal leaves every byte of the buffer. 15 is looked for
/// first, 13 last.
///
/// ```
/// use fervolatro::PaymentType;
///
/// let mut buffer = [7; 171];
/// let refusal =
///     fervolatro::nmas_into(b"RCB", None, 1, PaymentType::Enablement, &mut buffer).unwrap_err();
/// assert_eq!(refusal.number(), 1);
/// assert_eq!(buffer, [7; 171]);
/// ```
pub fn nmas_into(
    book: &[u8],
    locked: Option<&[u8]>,
    account: u32,
    payment_type: impl Into<u64>,
    buffer: &mut [u8],
) -> Result<usize, Refusal> {
    let books = Books::of(book, locked);
    calls::nmas(books, account, payment_type.into(), buffer).into_result(buffer.len())
}

/// What a line of a reconciliation file says.
#[derive(Clone, Copy, Debug, PartialEq, Eq, Hash)]
pub struct NmasRow {
    /// As YYYYMMDD.
    pub date: u32,
    /// The settlement run, 1 to 99.
    pub run: u16,
    /// Of the day, 1 to 288.
    pub interval: u16,
    pub account: u32,
    /// The contract's id.
    pub contract: u32,
    pub payment_type: PaymentType,
    pub region: Region,
    /// The regional benefit factor, in millionths, above 0.
    pub factor: u32,
    /// The contract's whole payment, in ten-thousandths of a dollar.
    pub payment: u64,
    /// What the account must pay, negative: the sum of `by_ace` and `by_asoe`.
    pub recovery: i64,
    /// The account's ACE in the region, in kWh, 0 or negative.
    pub own_ace: i32,
    /// All accounts' ACE in the region.
    pub region_ace: i32,
    /// The account's ASOE in the region, in kWh, 0 or positive.
    pub own_asoe: i32,
    /// All accounts' ASOE in the region.
    pub region_asoe: i32,
    /// What the account must pay by its ACE, as the statement's line has it.
    pub by_ace: i64,
    /// What the account must pay by its ASOE, as the statement's line has it.
    pub by_asoe: i64,
}

/// How many rows a reconciliation file has: any text is either such a file or refused
/// with 19, at the number of the first line, from 0, that is at fault. No text at all has
/// no rows.
///
/// ```
/// # fn main() -> Result<(), Box<dyn std::error::Error>> {
/// let line = "20250608,1,1,7,RESTART,9,AVAILABILITY,NSW1,1.000000,100.0000,\
///             -1.1663,-15.000,-1015.000,5.000,585.000,-0.7389,-0.4274\n";
/// let text = line.repeat(3);
/// assert_eq!(fervolatro::nmas_rows(text.as_bytes())?, 3);
/// assert_eq!(fervolatro::nmas_rows(b"")?, 0);
/// // The last line lacks its line feed.
/// let cut = &text.as_bytes()[..text.len() - 1];
/// let refusal = fervolatro::nmas_rows(cut).unwrap_err();
/// assert_eq!((refusal.number(), refusal.place), (19, 2));
/// # Ok(())
/// # }
/// ```
pub fn nmas_rows(text: &[u8]) -> Result<usize, Refusal> {
    calls::nmas_rows(text).into_result()
}

/// Reads one row of a reconciliation file, numbered from 0. The whole text is checked for
/// each. 19 is looked for first, then 15.
///
/// ```
/// # fn main() -> Result<(), Box<dyn std::error::Error>> {
/// use fervolatro::{PaymentType, Region};
///
/// let text = b"20250608,1,1,7,RESTART,9,AVAILABILITY,NSW1,1.000000,100.0000,\
///              -1.1663,-15.000,-1015.000,5.000,585.000,-0.7389,-0.4274\n";
/// let row = fervolatro::nmas_row(text, 0)?;
/// assert_eq!((row.account, row.contract, row.region), (7, 9, Region::Nsw1));
/// assert_eq!(row.payment_type, PaymentType::Availability);
/// assert_eq!((row.own_ace, row.region_ace), (-15_000, -1_015_000));
/// assert_eq!(row.recovery, -7_389 - 4_274);
/// let refusal = fervolatro::nmas_row(text, 1).unwrap_err();
/// assert_eq!(refusal.reason, fervolatro::Reason::PastEnd);
/// # Ok(())
/// # }
/// ```
pub fn nmas_row(text: &[u8], index: u64) -> Result<NmasRow, Refusal> {
    calls::nmas_row(text, index).into_result()
}

// What the library never answers is not passed over in silence.

impl calls::NmasSize {
    /// The answer as a result. A refusal has no rows.
    fn into_result(self) -> Result<usize, Refusal> {
        calls::accepted(self.refusal, self.place, self.rows == 0)?;
        Ok(field(self.rows))
    }
}

impl calls::NmasEntry {
    /// The answer as a result. A row has place 0, a refusal no row.
    fn into_result(self) -> Result<NmasRow, Refusal> {
        calls::accepted(self.refusal, self.place, self.is_empty())?;
        let payment_type = PaymentType::from_number(field(self.r#type));
        let region = Region::from_number(field(self.region));
        Ok(NmasRow {
            date: field(self.date),
            run: field(self.run),
            interval: field(self.interval),
            account: field(self.account),
            contract: field(self.contract),
            payment_type: payment_type.expect("payment types are 0 to 2"),
            region: region.expect("regions are 0 to 4"),
            factor: field(self.factor),
            payment: self.payment,
            recovery: self.recovery,
            own_ace: field(self.own_ace),
            region_ace: field(self.region_ace),
            own_asoe: field(self.own_asoe),
            region_asoe: field(self.region_asoe),
            by_ace: self.by_ace,
            by_asoe: self.by_asoe,
        })
    }

    fn is_empty(&self) -> bool {
        let named = [self.date, self.run, self.interval, self.account];
        let of_the_contract = [self.contract, self.r#type, self.region, self.factor];
        let energies = [
            self.own_ace,
            self.region_ace,
            self.own_asoe,
            self.region_asoe,
        ];
        named == [0; 4]
            && of_the_contract == [0; 4]
            && self.payment == 0
            && energies == [0; 4]
            && [self.recovery, self.by_ace, self.by_asoe] == [0; 3]
    }
}

#[cfg(test)]
mod tests {
    use crate::calls::{NmasEntry, NmasSize};
    use crate::refusal::Refusal;

    /// A row of ones, but for its region and what is given.
    fn entry(refusal: u64, r#type: u64, account: u64) -> NmasEntry {
        NmasEntry {
            refusal,
            place: 0,
            date: 1,
            run: 1,
            interval: 1,
            account,
            contract: 1,
            r#type,
            region: 4,
            factor: 1,
            payment: 1,
            recovery: 1,
            own_ace: 1,
            region_ace: 1,
            own_asoe: 1,
            region_asoe: 1,
            by_ace: 1,
            by_asoe: 1,
        }
    }

    fn size(refusal: u64, place: u64, rows: u64) -> NmasSize {
        NmasSize {
            refusal,
            place,
            rows,
        }
    }

    #[test]
    fn rows_and_refusals_are_told() {
        assert_eq!(size(0, 0, 80).into_result(), Ok(80));
        assert_eq!(size(19, 7, 0).into_result(), Err(Refusal::of(19, 7)));
        let row = entry(0, 2, 1).into_result();
        assert_eq!(row.map(|row| row.account), Ok(1));
    }

    #[test]
    #[should_panic(expected = "a refusal gives nothing")]
    fn a_refusal_that_has_rows_is_not_passed_over() {
        let _ = size(19, 0, 1).into_result();
    }

    #[test]
    #[should_panic(expected = "a refusal gives nothing")]
    fn a_refusal_that_has_a_row_is_not_passed_over() {
        let _ = entry(19, 0, 0).into_result();
    }

    #[test]
    #[should_panic(expected = "payment types are 0 to 2")]
    fn another_payment_type_is_not_passed_over() {
        let _ = entry(0, 3, 1).into_result();
    }

    #[test]
    #[should_panic(expected = "4294967296 is wider than its field")]
    fn an_account_that_is_too_wide_is_not_passed_over() {
        let _ = entry(0, 0, 1 << 32).into_result();
    }
}
