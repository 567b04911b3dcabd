//! All lines of a statement: each is checked where it stands, and then all are
//! written as plain numbers.

use super::check::{is_date, refuse_unless, MONEY_LIMIT};
use super::layout::{u16_at, u32_at, u64_at};
use crate::Refusal;

const MOST_LINES: usize = 2_152;

/// `fervolatro_fields` of `include/fervolatro.h`.
#[repr(C)]
#[derive(Clone, Copy, Debug, Default, PartialEq, Eq)]
pub struct Fields {
    pub id: u64,
    pub part: u64,
    pub regions: u64,
    pub unit: u64,
    pub amount: i64,
}

impl Fields {
    /// As they stand in memory, one word each, little-endian.
    pub fn bytes(&self) -> [u8; 40] {
        let amount = self.amount.cast_unsigned();
        let words = [self.id, self.part, self.regions, self.unit, amount];
        let bytes = words.map(u64::to_le_bytes);
        *bytes
            .as_flattened()
            .as_array()
            .expect("five words of eight bytes")
    }

    pub fn of_bytes(bytes: &[u8; 40]) -> Self {
        let word = |index: usize| u64_at(bytes, 8 * index);
        Fields {
            id: word(0),
            part: word(1),
            regions: word(2),
            unit: word(3),
            amount: word(4).cast_signed(),
        }
    }
}

/// Writes the lines at the front, and gives how many they are.
pub fn lines(statement: &[u8], fields: &mut [Fields]) -> Result<usize, Refusal> {
    let lines = checked(statement)?;
    refuse_unless(fields.len() >= lines.len(), 13, 0)?;
    for (slot, line) in fields.iter_mut().zip(lines) {
        *slot = Fields {
            id: u32_at(line, 0).into(),
            part: line[4].into(),
            regions: line[5].into(),
            unit: u32_at(line, 8).into(),
            amount: amount(line),
        };
    }
    Ok(lines.len())
}

/// The lines of a statement, or 14.
fn checked(statement: &[u8]) -> Result<&[[u8; 24]], Refusal> {
    let refused = Refusal {
        number: 14,
        place: 0,
    };
    let (header, lines) = statement.split_first_chunk().ok_or(refused)?;
    let (lines, rest) = lines.as_chunks();
    let in_range = (lines.len() <= MOST_LINES) & (lines.len() == u16_at(header, 14).into());
    let holds = header_holds(header) & rest.is_empty() & in_range;
    refuse_unless(
        holds && lines.iter().fold(true, |ok, line| ok & line_holds(line)),
        14,
        0,
    )?;
    Ok(lines)
}

fn header_holds(header: &[u8; 24]) -> bool {
    (u64_at(header, 0) << 16 == u64::from_le_bytes(*b"\0\0RCS\0\x01\0"))
        & (u16_at(header, 6).wrapping_sub(1) < 288)
        & is_date(u32_at(header, 8))
        & (u16_at(header, 12).wrapping_sub(1) < 99)
        & (u32_at(header, 16) != 0)
        & (u32_at(header, 20) == 0)
}

#[inline(always)]
fn line_holds(line: &[u8; 24]) -> bool {
    let part = line[4];
    // The regions and the reserved bytes behind them, as one number; so the unit.
    let regions = u32_at(line, 4) >> 8;
    let unit = u64_at(line, 8);
    let amount = amount(line);
    (u32_at(line, 0) != 0)
        & (part.wrapping_sub(1) < 10)
        & (regions.wrapping_sub(1) < 31)
        & ((part < 9) | regions.is_power_of_two())
        & (unit <= u32::MAX.into())
        & ((unit != 0) == (part.wrapping_sub(3) < 3))
        & (u64_at(line, 16).wrapping_add(MONEY_LIMIT) <= 2 * MONEY_LIMIT)
        & ((amount <= 0) | (part == 3) | (part == 6))
}

#[inline(always)]
fn amount(line: &[u8; 24]) -> i64 {
    u64_at(line, 16).cast_signed()
}
