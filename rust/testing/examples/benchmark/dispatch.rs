//! The dispatch rows that are timed.

use fervolatro_testing::dispatch::encode;
use fervolatro_testing::requests::dispatch::good_rows;
use fervolatro_testing::requests::random::Random;

const SEED: u64 = 20_250_608;

/// Dispatch rows, and the id and the service whose costs are asked for.
pub struct Rows {
    pub name: String,
    pub bytes: Vec<u8>,
    pub id: u32,
    pub service: u64,
}

/// So many rows, of ordinary amounts: up to $300 and 500 MW. The id and the service are
/// those of the row in the middle.
pub fn rows(count: usize) -> Rows {
    let mut random = Random::new(SEED);
    let mut rows = good_rows(&mut random, count);
    for row in &mut rows {
        row.price = random.between(1, 30_000) as u32;
        row.enablement = random.between(1, 50_000) as u32;
    }
    let asked = rows[count / 2];
    Rows {
        name: format!("{count} dispatch rows"),
        bytes: encode(&rows),
        id: asked.id,
        service: asked.service.into(),
    }
}
