//! Why a call is refused.

use std::error::Error;
use std::fmt;

use crate::numbered::numbered;

numbered! {
    /// The reasons for a refusal, as the rules number them: 1 to 10, 17 and 18 come from
    /// every call on a book, 11 and 12 from asking for a statement, for its length or for a
    /// reconciliation file, 13 from writing either, 15 from asking for a balance, for what
    /// it cut off or, with a payment type past 2, for a file; 13 to 15 from a call on a
    /// statement; 16 from a call on dispatch rows; 19 and 15 from reading a file. The first
    /// that applies is given: 17 and 18 are looked for after 9 and before 10, the others in
    /// the order of their numbers, but 14 before 13, a payment type's 15 before all else and
    /// a row's behind 19.
    Reason {
        Short = 1, "book shorter than 84 bytes";
        Mark = 2, "mark, version or a reserved header byte wrong";
        Range = 3, "interval, date, run or a count out of its range";
        Length = 4, "length differs from what the counts give";
        Field = 5, "a field outside its rules";
        Order = 6, "constraint ids, (constraint, unit) pairs, (account, region) pairs or contract ids not strictly rising";
        NoConstraint = 7, "a unit row names no constraint here, or one of mode 0";
        Factors = 8, "factor sums fail";
        RegionEntry = 9, "a region entry differs from its rows' sums";
        ZeroTotal = 10, "a total to divide by is zero";
        NoAccount = 11, "no book read names the account";
        Limit = 12, "a line would pass 50,000,000,000 either way";
        Buffer = 13, "lent buffer shorter than the statement";
        NoStatement = 14, "bytes are not a statement";
        PastEnd = 15, "pool or line number past the end";
        DispatchRow = 16, "a dispatch row that is cut short, out of range, not rising, has a product above 600,000,000,000 or takes a sum past 50,000,000,000";
        NoLocked = 17, "a kind 2 contract has no locked book";
        Locked = 18, "the locked book fails one of checks 1 to 9, has another date or interval, or a later run";
        NmasLine = 19, "text not of the file's form, out of the book's or statement's ranges, a benefit factor of 0, or RECOVERY_AMOUNT not the sum of the last two";
    }
}

impl Reason {
    /// Whether it is one record's, row's or line's, so that its place is to be told.
    const fn has_place(self) -> bool {
        matches!(self.number(), 5..=10 | 16..=19)
    }
}

/// A refusal: why, and at which record, row or line.
///
/// ```
/// let refusal = fervolatro::check(b"RCB", None).unwrap_err();
/// assert_eq!(refusal.reason, fervolatro::Reason::Short);
/// assert_eq!(refusal.number(), 1);
/// assert_eq!(refusal.to_string(), "refusal 1: book shorter than 84 bytes");
/// ```
#[derive(Clone, Copy, Debug, PartialEq, Eq, Hash)]
pub struct Refusal {
    /// Why.
    pub reason: Reason,
    /// Where the record at fault starts, in bytes from the start of the book, or the
    /// dispatch row, in bytes from the start of the rows. With 17 and 18 the record is
    /// the book's first contract of kind 2. With 19 it is the number of the line at fault,
    /// from 0. 0 where it is no record's, row's or line's, as with every reason but 5 to 10
    /// and 16 to 19.
    pub place: usize,
}

impl Refusal {
    /// The number of the reason.
    pub const fn number(&self) -> u8 {
        self.reason.number()
    }

    /// A refusal as the library numbers it.
    pub(crate) fn of(number: u64, place: u64) -> Self {
        let reason = u8::try_from(number).ok().and_then(Reason::from_number);
        Refusal {
            reason: reason.expect("refusals are numbered 1 to 19"),
            place: usize::try_from(place).expect("a place lies within the lent bytes"),
        }
    }
}

impl fmt::Display for Refusal {
    fn fmt(&self, out: &mut fmt::Formatter<'_>) -> fmt::Result {
        let Refusal { reason, place } = self;
        match reason.has_place() {
            false => write!(out, "refusal {}: {reason}", self.number()),
            true => write!(out, "refusal {} at {place}: {reason}", self.number()),
        }
    }
}

impl Error for Refusal {}

#[cfg(test)]
mod tests {
    use super::{Reason, Refusal};

    /// The meaning of every number, as the rules' table has it.
    const SAID: [&str; 19] = [
        "refusal 1: book shorter than 84 bytes",
        "refusal 2: mark, version or a reserved header byte wrong",
        "refusal 3: interval, date, run or a count out of its range",
        "refusal 4: length differs from what the counts give",
        "refusal 5 at 84: a field outside its rules",
        "refusal 6 at 84: constraint ids, (constraint, unit) pairs, (account, region) pairs or \
         contract ids not strictly rising",
        "refusal 7 at 84: a unit row names no constraint here, or one of mode 0",
        "refusal 8 at 84: factor sums fail",
        "refusal 9 at 84: a region entry differs from its rows' sums",
        "refusal 10 at 84: a total to divide by is zero",
        "refusal 11: no book read names the account",
        "refusal 12: a line would pass 50,000,000,000 either way",
        "refusal 13: lent buffer shorter than the statement",
        "refusal 14: bytes are not a statement",
        "refusal 15: pool or line number past the end",
        // The first row stands at the start of the rows.
        "refusal 16 at 0: a dispatch row that is cut short, out of range, not rising, has a product \
         above 600,000,000,000 or takes a sum past 50,000,000,000",
        "refusal 17 at 84: a kind 2 contract has no locked book",
        "refusal 18 at 84: the locked book fails one of checks 1 to 9, has another date or interval, \
         or a later run",
        // The first line's number.
        "refusal 19 at 0: text not of the file's form, out of the book's or statement's ranges, a \
         benefit factor of 0, or RECOVERY_AMOUNT not the sum of the last two",
    ];

    #[test]
    fn every_refusal_is_said_in_words() {
        assert_eq!(Reason::ALL.len(), SAID.len());
        for (number, said) in (1..).zip(SAID) {
            let place = if said.contains(" at 84: ") { 84 } else { 0 };
            let refusal = Refusal::of(number, place);
            assert_eq!(u64::from(refusal.number()), number);
            assert_eq!(refusal.to_string(), said);
        }
    }

    #[test]
    #[should_panic(expected = "refusals are numbered 1 to 19")]
    fn a_number_that_no_refusal_has_is_not_passed_over() {
        Refusal::of(20, 0);
    }

    /// What `?` and `Box<dyn Error>` ask for.
    #[test]
    fn a_refusal_is_an_error() {
        let boxed: Box<dyn std::error::Error + Send + Sync> = Refusal::of(9, 24).into();
        let said = "refusal 9 at 24: a region entry differs from its rows' sums";
        assert_eq!(boxed.to_string(), said);
    }
}
