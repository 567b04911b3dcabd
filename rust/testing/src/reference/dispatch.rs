//! Payments and base costs made from dispatch rows: refusal 16. The sentences are those
//! of the request (02, Req 01), in its order; a few that it takes for granted are 01's.

use super::amounts::round;
use crate::dispatch::Row;
use crate::field::Field;
use crate::Refusal;

/// "A region's payment is price x enablement / 12, and a constraint's regional base cost
/// is marginal value x enablement / 12": what is divided. Cents times hundredths of a MW
/// are ten-thousandths of a dollar, 01's "units of money".
fn product(row: &Row) -> i128 {
    i128::from(row.price) * i128::from(row.enablement)
}

/// "Rows of 16 bytes come in a slice of their own." A last piece that has fewer is a row
/// "cut short".
fn whole_row(piece: &[u8]) -> Option<Row> {
    (piece.len() == Row::SIZE).then(|| Row::read(&mut &piece[..]))
}

/// "Service u8, region u8, reserved u16, price u32 in cents, to 2,500,000, enablement u32
/// in hundredths of a MW, to 1,000,000." 01: "service u8, 1 to 10", "region u8, 0 to 4",
/// "reserved bytes are zero".
fn is_in_range(row: &Row) -> bool {
    (1..=10).contains(&row.service)
        && (0..=4).contains(&row.region)
        && row.reserved == 0
        && row.price <= 2_500_000
        && row.enablement <= 1_000_000
}

/// "Id 0 marks a payment row."
pub fn payment(bytes: &[u8], service: u64) -> Result<u64, Refusal> {
    Ok(costs(bytes)?.payment(service))
}

/// "Any other id names a constraint and its price is the marginal value."
pub fn base_cost(bytes: &[u8], id: u32, service: u64) -> Result<u64, Refusal> {
    Ok(costs(bytes)?.base_cost(id, service))
}

/// "Rows rise strictly by id, service, region": by the first number, where that is the
/// same by the second, and then by the third. The first row has none to rise above.
fn is_rising(before: Option<&Row>, row: &Row) -> bool {
    let numbers = |row: &Row| (row.id, row.service, row.region);
    before.is_none_or(|before| numbers(before) < numbers(row))
}

/// "Each product over 12 is rounded to units of money."
fn amount(row: &Row) -> i128 {
    round(product(row), 12)
}

/// "A service's payment, and an id's base cost per service, are sums over their rows, 0
/// without any."
fn sum(rows: &[Row], id: u32, service: u64) -> i128 {
    let is_theirs = |row: &&Row| row.id == id && u64::from(row.service) == service;
    rows.iter().filter(is_theirs).map(amount).sum()
}

/// The costs of rows that are all good.
pub struct Costs {
    rows: Vec<Row>,
}

impl Costs {
    pub fn payment(&self, service: u64) -> u64 {
        self.sum(0, service)
    }

    /// Payment rows are nobody's base cost.
    pub fn base_cost(&self, id: u32, service: u64) -> u64 {
        match id {
            0 => 0,
            _ => self.sum(id, service),
        }
    }

    fn sum(&self, id: u32, service: u64) -> u64 {
        let sum = sum(&self.rows, id, service);
        u64::try_from(sum).expect("no sum passes 50,000,000,000")
    }
}

/// "Refusals: 16, the only one of this call, at the first row that is" bad, whatever is
/// asked for. The place is the row's offset.
pub fn costs(bytes: &[u8]) -> Result<Costs, Refusal> {
    let mut rows = Vec::new();
    for (index, piece) in bytes.chunks(Row::SIZE).enumerate() {
        let good = whole_row(piece).filter(|row| is_good(&rows, row));
        let place = Row::SIZE * index;
        rows.push(good.ok_or(Refusal { number: 16, place })?);
    }
    Ok(Costs { rows })
}

/// Not "out of range, not rising, has a product above 600,000,000,000 or takes a sum past
/// 50,000,000,000".
fn is_good(before: &[Row], row: &Row) -> bool {
    is_in_range(row)
        && is_rising(before.last(), row)
        && product(row) <= 600_000_000_000
        && sum_with(before, row) <= 50_000_000_000
}

/// The sum that a row takes further: that of its own id and service.
fn sum_with(before: &[Row], row: &Row) -> i128 {
    sum(before, row.id, row.service.into()) + amount(row)
}
