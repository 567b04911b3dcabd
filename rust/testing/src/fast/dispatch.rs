//! Payments and base costs, in one pass over the rows: what an id and a service come to
//! is kept for the last row only, and taken over where it is asked for.

use super::check::{refuse_unless, MONEY_LIMIT};
use super::layout::u32_at;
use crate::Refusal;

type Row = [u8; 16];

const PRODUCT_LIMIT: u64 = 12 * MONEY_LIMIT;

/// Where the service ends in a key: the region and what is reserved have the bits below.
const SERVICE_BIT: u32 = 24;

pub fn payment(rows: &[u8], service: u64) -> Result<u64, Refusal> {
    sum(rows, 0, service)
}

pub fn base_cost(rows: &[u8], id: u32, service: u64) -> Result<u64, Refusal> {
    let sum = sum(rows, id, service)?;
    Ok(if id == 0 { 0 } else { sum })
}

/// What the rows of an id and a service come to.
fn sum(bytes: &[u8], id: u32, service: u64) -> Result<u64, Refusal> {
    let (rows, rest) = bytes.as_chunks();
    // No good row has a service above 255, so all of those are as one.
    let named = u64::from(id) << 8 | service.min(255);
    let (mut before, mut run, mut asked) = (0, 0, 0);
    for (index, row) in rows.iter().enumerate() {
        let (key, product) = (key(row), product(row));
        let is_same_service = key ^ before < 1 << SERVICE_BIT;
        let sum = if is_same_service { run } else { 0 } + (product + 6) / 12;
        let holds =
            (product <= PRODUCT_LIMIT) & (key > before) & (sum <= MONEY_LIMIT) & is_in_range(row);
        refuse_unless(holds, 16, 16 * index)?;
        asked = if key >> SERVICE_BIT == named {
            sum
        } else {
            asked
        };
        (before, run) = (key, sum);
    }
    refuse_unless(rest.is_empty(), 16, 16 * rows.len())?;
    Ok(asked)
}

/// Id, service and region as one number, by which rows rise: in 32, 8 and 8 bits. The
/// lowest 16 are reserved.
#[inline(always)]
fn key(row: &Row) -> u64 {
    u64::from(u32_at(row, 0)) << 32 | u64::from(u32_at(row, 4).swap_bytes())
}

#[inline(always)]
fn product(row: &Row) -> u64 {
    u64::from(u32_at(row, 8)) * u64::from(u32_at(row, 12))
}

#[inline(always)]
fn is_in_range(row: &Row) -> bool {
    (row[4].wrapping_sub(1) < 10)
        // The region and what is reserved stand above the service in one number.
        & (u32_at(row, 4) < 5 << 8)
        & (u32_at(row, 8) <= 2_500_000)
        & (u32_at(row, 12) <= 1_000_000)
}
