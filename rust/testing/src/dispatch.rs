//! Dispatch rows and their bytes: the layout of the request for costs (02, Req 01) and
//! none of its rules. Any value of any field can be written, good or bad.

use crate::field::{record, write_records, Field};

record! {
    /// A row, 16 bytes.
    Row {
        id: u32,
        service: u8,
        region: u8,
        reserved: u16,
        price: u32,
        enablement: u32,
    }
}

impl Row {
    /// A row of an id, a service and a region, with its price and its enablement.
    pub const fn of(id: u32, service: u8, region: u8, pair: (u32, u32)) -> Self {
        let (price, enablement) = pair;
        Row {
            id,
            service,
            region,
            reserved: 0,
            price,
            enablement,
        }
    }
}

/// The bytes of the rows, one behind the other.
pub fn encode(rows: &[Row]) -> Vec<u8> {
    let mut bytes = Vec::with_capacity(Row::SIZE * rows.len());
    write_records(rows, &mut bytes);
    bytes
}

/// The rows of bytes that have no other; panics if the last one is cut short.
pub fn decode(bytes: &[u8]) -> Vec<Row> {
    let pieces = bytes.chunks(Row::SIZE);
    pieces.map(|mut piece| Row::read(&mut piece)).collect()
}
