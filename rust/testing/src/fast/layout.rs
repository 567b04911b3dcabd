//! The sections of a book where they stand, as records of a fixed number of bytes:
//! a field at a fixed place in a record is one load, with nothing left to check.

/// The lent bytes, taken apart by the counts of the header.
#[derive(Clone, Copy)]
pub(super) struct Sections<'b> {
    pub header: &'b [u8; 24],
    pub entries: &'b [[u8; 12]],
    pub constraints: &'b [[u8; 40]],
    pub units: &'b [[u8; 20]],
    pub energies: &'b [[u8; 24]],
    pub contracts: &'b [[u8; 36]],
}

pub(super) const ENTRIES_AT: usize = 24;
pub(super) const CONSTRAINTS_AT: usize = 84;

impl<'b> Sections<'b> {
    /// The sections of a book that has a header and just the length that its counts
    /// give; none if it is longer or shorter.
    pub fn of(header: &'b [u8; 24], book: &'b [u8]) -> Option<Self> {
        let mut rest = &book[24..];
        let sections = Sections {
            header,
            entries: take(&mut rest, 5)?,
            constraints: take(&mut rest, u16_at(header, 14))?,
            units: take(&mut rest, u16_at(header, 16))?,
            energies: take(&mut rest, u16_at(header, 18))?,
            contracts: take(&mut rest, u16_at(header, 20))?,
        };
        rest.is_empty().then_some(sections)
    }

    pub fn units_at(&self) -> usize {
        CONSTRAINTS_AT + self.constraints.as_flattened().len()
    }

    pub fn energies_at(&self) -> usize {
        self.units_at() + self.units.as_flattened().len()
    }

    pub fn contracts_at(&self) -> usize {
        self.energies_at() + self.energies.as_flattened().len()
    }
}

/// Takes so many records from the front.
fn take<'b, const N: usize>(bytes: &mut &'b [u8], count: u16) -> Option<&'b [[u8; N]]> {
    let (front, rest) = bytes.split_at_checked(N * usize::from(count))?;
    *bytes = rest;
    Some(front.as_chunks().0)
}

/// The bytes of a field, in a record of `N` bytes.
#[inline(always)]
fn field<const N: usize, const W: usize>(record: &[u8; N], at: usize) -> [u8; W] {
    *record[at..]
        .first_chunk()
        .expect("a field lies in its record")
}

#[inline(always)]
pub(super) fn u16_at<const N: usize>(record: &[u8; N], at: usize) -> u16 {
    u16::from_le_bytes(field(record, at))
}

#[inline(always)]
pub(super) fn u32_at<const N: usize>(record: &[u8; N], at: usize) -> u32 {
    u32::from_le_bytes(field(record, at))
}

#[inline(always)]
pub(super) fn i32_at<const N: usize>(record: &[u8; N], at: usize) -> i32 {
    i32::from_le_bytes(field(record, at))
}

#[inline(always)]
pub(super) fn u64_at<const N: usize>(record: &[u8; N], at: usize) -> u64 {
    u64::from_le_bytes(field(record, at))
}

/// The size of a number that is not above 0. One that is gives more than any rule
/// allows.
#[inline(always)]
pub(super) fn size_at<const N: usize>(record: &[u8; N], at: usize) -> u32 {
    u32_at(record, at).wrapping_neg()
}
