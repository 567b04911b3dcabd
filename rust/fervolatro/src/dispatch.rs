//! Payments and base costs, made from dispatch rows.

use crate::calls;
use crate::refusal::Refusal;

/// The bytes of a dispatch row.
pub const DISPATCH_ROW_SIZE: usize = 16;

/// The payment of a service, in ten-thousandths of a dollar: of each payment row of the
/// service price x enablement / 12, rounded, and the sum of these. It is 0 where no row
/// names the service, whatever number that is.
///
/// A row has the id (32 bits; 0 marks a payment row), the service and the region (8 bits
/// each), 16 bits of 0, the price in cents and the enablement in hundredths of a MW (32
/// bits each), little-endian. Rows rise by id, service and region. All of them are
/// checked, and the first bad one is refused with 16, at its offset.
///
/// ```
/// # fn main() -> Result<(), Box<dyn std::error::Error>> {
/// use fervolatro::{Region, Service, DISPATCH_ROW_SIZE};
///
/// // $98.81 per MWh and 50 MW of raise regulation in NSW1.
/// let mut row = [0; DISPATCH_ROW_SIZE];
/// row[4] = Service::RegulationRaise.number();
/// row[5] = Region::Nsw1.number();
/// row[8..12].copy_from_slice(&9_881_u32.to_le_bytes());
/// row[12..].copy_from_slice(&5_000_u32.to_le_bytes());
/// // 9,881 x 5,000 / 12 = 4,117,083.33
/// assert_eq!(fervolatro::payment(&row, Service::RegulationRaise)?, 4_117_083);
/// assert_eq!(fervolatro::payment(&row, 77_u64)?, 0);
/// # Ok(())
/// # }
/// ```
pub fn payment(rows: &[u8], service: impl Into<u64>) -> Result<u64, Refusal> {
    calls::payment(rows, service.into()).into_result()
}

/// The base cost of a constraint for a service, in ten-thousandths of a dollar: of each
/// row of the constraint's id and the service marginal value x enablement / 12, rounded,
/// and the sum of these. The marginal value stands where a payment row has its price; the
/// rows are those of [`payment`]. It is 0 where no row names both, and for id 0: payment
/// rows are nobody's base cost.
///
/// ```
/// # fn main() -> Result<(), Box<dyn std::error::Error>> {
/// use fervolatro::{Reason, Region, Service, DISPATCH_ROW_SIZE};
///
/// // Constraint 500 in TAS1: a marginal value of $83.17 and 50 MW of raise regulation.
/// let mut row = [0; DISPATCH_ROW_SIZE];
/// row[..4].copy_from_slice(&500_u32.to_le_bytes());
/// row[4] = Service::RegulationRaise.number();
/// row[5] = Region::Tas1.number();
/// row[8..12].copy_from_slice(&8_317_u32.to_le_bytes());
/// row[12..].copy_from_slice(&5_000_u32.to_le_bytes());
/// // 8,317 x 5,000 / 12 = 3,465,416.67
/// let cost = fervolatro::base_cost(&row, 500, Service::RegulationRaise)?;
/// assert_eq!(cost, 3_465_417);
/// // The same row once more does not rise.
/// let refusal = fervolatro::base_cost(&[row, row].concat(), 500, 9_u64).unwrap_err();
/// assert_eq!((refusal.reason, refusal.place), (Reason::DispatchRow, 16));
/// # Ok(())
/// # }
/// ```
pub fn base_cost(rows: &[u8], id: u32, service: impl Into<u64>) -> Result<u64, Refusal> {
    calls::base_cost(rows, id, service.into()).into_result()
}
