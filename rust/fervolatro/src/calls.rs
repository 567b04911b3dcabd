//! The calls of `include/fervolatro.h`: those of the linked library, or of the bridge
//! where the tests ask for it.

use std::fmt::Display;

use crate::refusal::Refusal;

/// What a call on a book reads.
#[derive(Clone, Copy)]
pub(crate) struct Books<'b> {
    pub(crate) book: &'b [u8],
    /// Empty where no locked book is lent.
    pub(crate) locked: &'b [u8],
}

impl<'b> Books<'b> {
    pub(crate) fn of(book: &'b [u8], locked: Option<&'b [u8]>) -> Self {
        let locked = locked.unwrap_or_default();
        Books { book, locked }
    }
}

/// `fervolatro_verdict` of `include/fervolatro.h`.
#[repr(C)]
pub(crate) struct Verdict {
    pub(crate) refusal: u64,
    pub(crate) place: u64,
}

/// `fervolatro_written` of `include/fervolatro.h`.
#[repr(C)]
pub(crate) struct Written {
    pub(crate) refusal: u64,
    pub(crate) place: u64,
    pub(crate) length: u64,
}

/// `fervolatro_pool` of `include/fervolatro.h`.
#[repr(C)]
pub(crate) struct Pool {
    pub(crate) refusal: u64,
    pub(crate) place: u64,
    pub(crate) amount: i64,
    pub(crate) lines: u64,
    pub(crate) sum: i64,
}

/// `fervolatro_cut` of `include/fervolatro.h`.
#[repr(C)]
pub(crate) struct Cut {
    pub(crate) refusal: u64,
    pub(crate) place: u64,
    pub(crate) stage: u64,
    pub(crate) region: u64,
    pub(crate) divisor: u64,
    pub(crate) cut: i64,
}

/// `fervolatro_heading` of `include/fervolatro.h`.
#[repr(C)]
pub(crate) struct Heading {
    pub(crate) refusal: u64,
    pub(crate) place: u64,
    pub(crate) account: u64,
    pub(crate) date: u64,
    pub(crate) interval: u64,
    pub(crate) run: u64,
    pub(crate) lines: u64,
}

/// `fervolatro_entry` of `include/fervolatro.h`.
#[repr(C)]
pub(crate) struct Entry {
    pub(crate) refusal: u64,
    pub(crate) place: u64,
    pub(crate) id: u64,
    pub(crate) part: u64,
    pub(crate) regions: u64,
    pub(crate) unit: u64,
    pub(crate) amount: i64,
}

/// `fervolatro_cost` of `include/fervolatro.h`.
#[repr(C)]
pub(crate) struct Cost {
    pub(crate) refusal: u64,
    pub(crate) place: u64,
    pub(crate) amount: u64,
}

/// `fervolatro_nmas_size` of `include/fervolatro.h`.
#[repr(C)]
pub(crate) struct NmasSize {
    pub(crate) refusal: u64,
    pub(crate) place: u64,
    pub(crate) rows: u64,
}

/// `fervolatro_nmas_entry` of `include/fervolatro.h`.
#[repr(C)]
pub(crate) struct NmasEntry {
    pub(crate) refusal: u64,
    pub(crate) place: u64,
    pub(crate) date: u64,
    pub(crate) run: u64,
    pub(crate) interval: u64,
    pub(crate) account: u64,
    pub(crate) contract: u64,
    pub(crate) r#type: u64,
    pub(crate) region: u64,
    pub(crate) factor: u64,
    pub(crate) payment: u64,
    pub(crate) recovery: i64,
    pub(crate) own_ace: i64,
    pub(crate) region_ace: i64,
    pub(crate) own_asoe: i64,
    pub(crate) region_asoe: i64,
    pub(crate) by_ace: i64,
    pub(crate) by_asoe: i64,
}

/// Whether the call was accepted. What is accepted has place 0, and a refusal's other
/// fields are all 0: what the library never answers is not passed over in silence.
pub(crate) fn accepted(refusal: u64, place: u64, is_empty: bool) -> Result<(), Refusal> {
    if refusal == 0 {
        assert_eq!(place, 0, "what is accepted has no place");
        return Ok(());
    }
    assert!(is_empty, "a refusal gives nothing");
    Err(Refusal::of(refusal, place))
}

/// A field of an answer, which fits the bytes that books and statements have for it.
pub(crate) fn field<W: Copy + Display, N: TryFrom<W>>(number: W) -> N {
    let fitting = N::try_from(number).ok();
    fitting.unwrap_or_else(|| panic!("{number} is wider than its field"))
}

impl Verdict {
    pub(crate) fn into_result(self) -> Result<(), Refusal> {
        accepted(self.refusal, self.place, true)
    }
}

impl Written {
    /// The answer as a result. A refusal has no length.
    pub(crate) fn into_length(self) -> Result<usize, Refusal> {
        let length = usize::try_from(self.length).expect("a length fits the memory");
        accepted(self.refusal, self.place, length == 0)?;
        Ok(length)
    }

    /// The answer of a call that writes. What is written lies within the buffer.
    pub(crate) fn into_result(self, room: usize) -> Result<usize, Refusal> {
        let length = self.into_length()?;
        assert!(length <= room, "{length} bytes written into {room}");
        Ok(length)
    }
}

impl Cost {
    /// The answer as a result. A refusal has no amount.
    pub(crate) fn into_result(self) -> Result<u64, Refusal> {
        accepted(self.refusal, self.place, self.amount == 0)?;
        Ok(self.amount)
    }
}

#[cfg(not(any(target_arch = "x86_64", feature = "native")))]
pub(crate) use crate::bridge::{
    balance, base_cost, check, cutoff, header, length, line, lines, nmas, nmas_row, nmas_rows,
    payment, rewrite, statement,
};
#[cfg(any(target_arch = "x86_64", feature = "native"))]
pub(crate) use linked::{
    balance, base_cost, check, cutoff, header, length, line, lines, nmas, nmas_row, nmas_rows,
    payment, rewrite, statement,
};

#[cfg(any(target_arch = "x86_64", feature = "native"))]
mod linked {
    use super::{Books, Cost, Cut, Entry, Heading, NmasEntry, NmasSize, Pool, Verdict, Written};

    extern "C" {
        fn fervolatro_check(
            book: *const u8,
            book_len: usize,
            locked: *const u8,
            locked_len: usize,
        ) -> Verdict;

        fn fervolatro_length(
            book: *const u8,
            book_len: usize,
            locked: *const u8,
            locked_len: usize,
            account: u32,
        ) -> Written;

        fn fervolatro_statement(
            book: *const u8,
            book_len: usize,
            locked: *const u8,
            locked_len: usize,
            account: u32,
            buffer: *mut u8,
            buffer_len: usize,
        ) -> Written;

        fn fervolatro_balance(
            book: *const u8,
            book_len: usize,
            locked: *const u8,
            locked_len: usize,
            pool: u64,
        ) -> Pool;

        fn fervolatro_cutoff(
            book: *const u8,
            book_len: usize,
            locked: *const u8,
            locked_len: usize,
            pool: u64,
            index: u64,
        ) -> Cut;

        fn fervolatro_header(statement: *const u8, statement_len: usize) -> Heading;

        fn fervolatro_line(statement: *const u8, statement_len: usize, index: u64) -> Entry;

        fn fervolatro_lines(
            statement: *const u8,
            statement_len: usize,
            buffer: *mut u8,
            buffer_len: usize,
        ) -> Written;

        fn fervolatro_rewrite(
            statement: *const u8,
            statement_len: usize,
            buffer: *mut u8,
            buffer_len: usize,
        ) -> Written;

        fn fervolatro_payment(rows: *const u8, rows_len: usize, service: u64) -> Cost;

        fn fervolatro_base_cost(rows: *const u8, rows_len: usize, id: u32, service: u64) -> Cost;

        fn fervolatro_nmas(
            book: *const u8,
            book_len: usize,
            locked: *const u8,
            locked_len: usize,
            account: u32,
            r#type: u64,
            buffer: *mut u8,
            buffer_len: usize,
        ) -> Written;

        fn fervolatro_nmas_rows(text: *const u8, text_len: usize) -> NmasSize;

        fn fervolatro_nmas_row(text: *const u8, text_len: usize, index: u64) -> NmasEntry;
    }

    pub(crate) fn check(Books { book, locked }: Books) -> Verdict {
        // SAFETY: each pointer and length are those of one slice, which nothing changes
        // while it is lent; the library reads only and keeps nothing.
        unsafe { fervolatro_check(book.as_ptr(), book.len(), locked.as_ptr(), locked.len()) }
    }

    pub(crate) fn length(Books { book, locked }: Books, account: u32) -> Written {
        // SAFETY: as for a check.
        unsafe {
            fervolatro_length(
                book.as_ptr(),
                book.len(),
                locked.as_ptr(),
                locked.len(),
                account,
            )
        }
    }

    pub(crate) fn statement(books: Books, account: u32, buffer: &mut [u8]) -> Written {
        let Books { book, locked } = books;
        // SAFETY: as for a check; the buffer is lent to this call alone, so it does not
        // overlap either book, and the library writes within its length.
        unsafe {
            fervolatro_statement(
                book.as_ptr(),
                book.len(),
                locked.as_ptr(),
                locked.len(),
                account,
                buffer.as_mut_ptr(),
                buffer.len(),
            )
        }
    }

    pub(crate) fn balance(Books { book, locked }: Books, pool: u64) -> Pool {
        // SAFETY: as for a check.
        unsafe {
            fervolatro_balance(
                book.as_ptr(),
                book.len(),
                locked.as_ptr(),
                locked.len(),
                pool,
            )
        }
    }

    pub(crate) fn cutoff(Books { book, locked }: Books, pool: u64, index: u64) -> Cut {
        // SAFETY: as for a check.
        unsafe {
            fervolatro_cutoff(
                book.as_ptr(),
                book.len(),
                locked.as_ptr(),
                locked.len(),
                pool,
                index,
            )
        }
    }

    pub(crate) fn header(statement: &[u8]) -> Heading {
        // SAFETY: as for a check.
        unsafe { fervolatro_header(statement.as_ptr(), statement.len()) }
    }

    pub(crate) fn line(statement: &[u8], index: u64) -> Entry {
        // SAFETY: as for a check.
        unsafe { fervolatro_line(statement.as_ptr(), statement.len(), index) }
    }

    pub(crate) fn lines(statement: &[u8], buffer: &mut [u8]) -> Written {
        // SAFETY: as for a statement.
        unsafe {
            fervolatro_lines(
                statement.as_ptr(),
                statement.len(),
                buffer.as_mut_ptr(),
                buffer.len(),
            )
        }
    }

    pub(crate) fn rewrite(statement: &[u8], buffer: &mut [u8]) -> Written {
        // SAFETY: as for a statement.
        unsafe {
            fervolatro_rewrite(
                statement.as_ptr(),
                statement.len(),
                buffer.as_mut_ptr(),
                buffer.len(),
            )
        }
    }

    pub(crate) fn payment(rows: &[u8], service: u64) -> Cost {
        // SAFETY: as for a check.
        unsafe { fervolatro_payment(rows.as_ptr(), rows.len(), service) }
    }

    pub(crate) fn base_cost(rows: &[u8], id: u32, service: u64) -> Cost {
        // SAFETY: as for a check.
        unsafe { fervolatro_base_cost(rows.as_ptr(), rows.len(), id, service) }
    }

    pub(crate) fn nmas(books: Books, account: u32, r#type: u64, buffer: &mut [u8]) -> Written {
        let Books { book, locked } = books;
        // SAFETY: as for a statement.
        unsafe {
            fervolatro_nmas(
                book.as_ptr(),
                book.len(),
                locked.as_ptr(),
                locked.len(),
                account,
                r#type,
                buffer.as_mut_ptr(),
                buffer.len(),
            )
        }
    }

    pub(crate) fn nmas_rows(text: &[u8]) -> NmasSize {
        // SAFETY: as for a check.
        unsafe { fervolatro_nmas_rows(text.as_ptr(), text.len()) }
    }

    pub(crate) fn nmas_row(text: &[u8], index: u64) -> NmasEntry {
        // SAFETY: as for a check.
        unsafe { fervolatro_nmas_row(text.as_ptr(), text.len(), index) }
    }
}

#[cfg(test)]
mod tests {
    use super::{Cost, Cut, Entry, Heading, NmasEntry, NmasSize, Pool, Refusal, Verdict, Written};
    use std::mem::offset_of;

    const HEADER: &str = include_str!("../../../include/fervolatro.h");

    /// The fields of a struct of the header, each with its offset: all have 64 bits.
    fn fields_in_header(name: &str) -> Vec<(&'static str, usize)> {
        let before = HEADER.split(&format!("}} {name};")).next();
        let body = before.and_then(|text| text.rsplit("typedef struct {").next());
        let fields = body.expect("the header has the struct").split(';');
        let names = fields.filter_map(|field| match field.trim().split_once(' ') {
            Some(("uint64_t" | "int64_t", name)) => Some(name),
            Some((kind, name)) => panic!("{name} is a {kind}"),
            None => None,
        });
        names.zip((0..).step_by(8)).collect()
    }

    macro_rules! assert_layout {
        ($of:ty, $name:literal, $size:literal: $($field:ident)*) => {
            // A name that is a word of the language has `r#` before it.
            let here = [$((stringify!($field).trim_start_matches("r#"), offset_of!($of, $field))),*];
            assert_eq!(fields_in_header($name), here, $name);
            assert_eq!(size_of::<$of>(), $size, $name);
        };
    }

    #[test]
    fn answers_have_the_header_s_fields() {
        assert_layout!(Verdict, "fervolatro_verdict", 16: refusal place);
        assert_layout!(Written, "fervolatro_written", 24: refusal place length);
        assert_layout!(Pool, "fervolatro_pool", 40: refusal place amount lines sum);
        assert_layout!(Cut, "fervolatro_cut", 48: refusal place stage region divisor cut);
        assert_layout!(Heading, "fervolatro_heading", 56:
            refusal place account date interval run lines);
        assert_layout!(Entry, "fervolatro_entry", 56:
            refusal place id part regions unit amount);
        assert_layout!(Cost, "fervolatro_cost", 24: refusal place amount);
        assert_layout!(NmasSize, "fervolatro_nmas_size", 24: refusal place rows);
        assert_layout!(NmasEntry, "fervolatro_nmas_entry", 144:
            refusal place date run interval account contract r#type region factor payment
            recovery own_ace region_ace own_asoe region_asoe by_ace by_asoe);
        // The numbers of a line, which `Line::of` takes in this order.
        let fields = ["id", "part", "regions", "unit", "amount"];
        let numbers = fields.into_iter().zip((0..).step_by(8));
        assert!(fields_in_header("fervolatro_fields")
            .into_iter()
            .eq(numbers));
    }

    fn written(refusal: u64, length: u64) -> Written {
        Written {
            refusal,
            place: 0,
            length,
        }
    }

    #[test]
    fn lengths_and_refusals_are_told() {
        assert_eq!(written(0, 312).into_length(), Ok(312));
        assert_eq!(written(0, 312).into_result(312), Ok(312));
        let refusal = Refusal::of(11, 0);
        assert_eq!(written(11, 0).into_length(), Err(refusal));
        assert_eq!(written(11, 0).into_result(312), Err(refusal));
    }

    #[test]
    #[should_panic(expected = "a refusal gives nothing")]
    fn a_refusal_that_has_a_length_is_not_passed_over() {
        let _ = written(11, 312).into_length();
    }

    #[test]
    #[should_panic(expected = "312 bytes written into 311")]
    fn more_bytes_than_were_lent_are_not_passed_over() {
        let _ = written(0, 312).into_result(311);
    }
}
