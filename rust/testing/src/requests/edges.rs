//! The range of every field of every record, to set a field just inside and just
//! past each end of it, in the bytes of a book, a statement or dispatch rows, and back
//! again.

use crate::book::{Section, Sections};

/// A field: where it stands in its record, how many bytes it has, its range.
#[derive(Clone, Copy, Debug)]
pub struct Edged {
    pub at: usize,
    pub width: usize,
    pub low: i64,
    pub high: i64,
}

const fn field(at: usize, width: usize, low: i64, high: i64) -> Edged {
    Edged {
        at,
        width,
        low,
        high,
    }
}

/// A reserved byte has a range of its own: 0 and nothing else.
const fn reserved(at: usize) -> Edged {
    field(at, 1, 0, 0)
}

/// An id or an account: from 1.
const fn name(at: usize) -> Edged {
    field(at, 4, 1, u32::MAX as i64)
}

const ENERGY: i64 = 20_000_000;
const MONEY: i64 = 50_000_000_000;
const WHOLE: i64 = 1_000_000;

pub const HEADER: &[Edged] = &[
    field(0, 1, b'R' as i64, b'R' as i64),
    field(1, 1, b'C' as i64, b'C' as i64),
    field(2, 1, b'B' as i64, b'B' as i64),
    reserved(3),
    field(4, 2, 1, 1),
    field(6, 2, 1, 288),
    field(8, 4, 20_250_101, 20_991_231),
    field(12, 2, 1, 99),
    field(14, 2, 0, 64),
    field(16, 2, 0, 600),
    field(18, 2, 0, 1_024),
    field(20, 2, 0, 16),
    reserved(22),
    reserved(23),
];

pub const REGION: &[Edged] = &[
    field(0, 4, -ENERGY, 0),
    field(4, 4, 0, ENERGY),
    field(8, 4, 0, ENERGY),
];

pub const CONSTRAINT: &[Edged] = &[
    name(0),
    field(4, 1, 1, 10),
    field(5, 1, 1, 31),
    field(6, 1, 0, 2),
    reserved(7),
    field(8, 8, 0, MONEY),
    field(16, 4, 0, 2_500_000),
    field(20, 4, 0, 10_000_000),
    field(24, 4, 0, WHOLE),
    field(28, 4, -WHOLE, WHOLE),
    field(32, 4, -WHOLE, 0),
    reserved(36),
    reserved(37),
    reserved(38),
    reserved(39),
];

pub const UNIT: &[Edged] = &[
    name(0),
    name(4),
    name(8),
    field(12, 4, -WHOLE, WHOLE),
    field(16, 4, -WHOLE, 0),
];

/// The residual fields have here the widest range that ACE and ASOE leave them;
/// the fault list has the narrower ends.
pub const ENERGY_ROW: &[Edged] = &[
    name(0),
    field(4, 1, 0, 4),
    reserved(5),
    reserved(6),
    reserved(7),
    field(8, 4, -ENERGY, 0),
    field(12, 4, 0, ENERGY),
    field(16, 4, -ENERGY, 0),
    field(20, 4, 0, ENERGY),
];

pub const CONTRACT: &[Edged] = &[
    name(0),
    field(4, 1, 1, 2),
    reserved(5),
    reserved(6),
    reserved(7),
    field(8, 8, 0, MONEY),
    field(16, 4, 0, WHOLE),
    field(20, 4, 0, WHOLE),
    field(24, 4, 0, WHOLE),
    field(28, 4, 0, WHOLE),
    field(32, 4, 0, WHOLE),
];

pub const STATEMENT_HEADER: &[Edged] = &[
    field(0, 1, b'R' as i64, b'R' as i64),
    field(1, 1, b'C' as i64, b'C' as i64),
    field(2, 1, b'S' as i64, b'S' as i64),
    reserved(3),
    field(4, 2, 1, 1),
    field(6, 2, 1, 288),
    field(8, 4, 20_250_101, 20_991_231),
    field(12, 2, 1, 99),
    field(14, 2, 0, 2_152),
    name(16),
    reserved(20),
    reserved(21),
    reserved(22),
    reserved(23),
];

/// The part decides what the other fields may be, so some stand here with two
/// ranges: regions one or more bits, the unit 0 or from 1, the amount of any sign
/// or not positive.
pub const LINE: &[Edged] = &[
    name(0),
    field(4, 1, 1, 10),
    field(5, 1, 1, 31),
    field(5, 1, 1, 16),
    reserved(6),
    reserved(7),
    field(8, 4, 0, 0),
    name(8),
    reserved(12),
    reserved(13),
    reserved(14),
    reserved(15),
    field(16, 8, -MONEY, MONEY),
    field(16, 8, -MONEY, 0),
];

pub const DISPATCH_ROW: &[Edged] = &[
    field(0, 4, 0, u32::MAX as i64),
    field(4, 1, 1, 10),
    field(5, 1, 0, 4),
    reserved(6),
    reserved(7),
    field(8, 4, 0, 2_500_000),
    field(12, 4, 0, 1_000_000),
];

/// Each section of a book with the fields of its records.
pub fn by_section(sections: &Sections) -> [(Section, &'static [Edged]); 5] {
    [
        (sections.regions, REGION),
        (sections.constraints, CONSTRAINT),
        (sections.units, UNIT),
        (sections.energies, ENERGY_ROW),
        (sections.contracts, CONTRACT),
    ]
}

impl Edged {
    /// Both ends, their neighbours on either side, and the ends of the field's
    /// own bits, where a wrong sign or a narrow sum would show.
    pub fn values(&self) -> [i64; 10] {
        let sign = 1_i64 << (8 * self.width - 1);
        [
            self.low.wrapping_sub(1),
            self.low,
            self.low + 1,
            self.high - 1,
            self.high,
            self.high + 1,
            0,
            -1,
            sign,
            sign.wrapping_sub(1),
        ]
    }

    /// Sets the field of the record at `record` and gives the bytes it had. A
    /// value too wide for the field loses its upper bytes.
    pub fn set(&self, whole: &mut [u8], record: usize, value: i64) -> [u8; 8] {
        self.store(whole, record, value.to_le_bytes())
    }

    /// Stores bytes in the field, the front ones, and gives those it had.
    fn store(&self, whole: &mut [u8], record: usize, bytes: [u8; 8]) -> [u8; 8] {
        let mut before = [0; 8];
        let field = &mut whole[record + self.at..][..self.width];
        before[..self.width].copy_from_slice(field);
        field.copy_from_slice(&bytes[..self.width]);
        before
    }
}

/// Shows the whole with each field of the record at each of its values, one at a
/// time, and puts the field back.
pub fn each(whole: &mut [u8], record: usize, fields: &[Edged], mut show: impl FnMut(&[u8])) {
    for field in fields {
        for value in field.values() {
            let before = field.set(whole, record, value);
            show(whole);
            field.store(whole, record, before);
        }
    }
}
