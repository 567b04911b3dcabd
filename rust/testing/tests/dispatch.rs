//! Compares payments and base costs, of the library and of the fast version, with the
//! reference's on some hundred thousand slices of dispatch rows: good ones up to 2,000
//! rows, every fault alone and two at once, fields at their edges, truncations, turned
//! bits, noise.

use fervolatro_testing::dispatch::{decode, encode, Row};
use fervolatro_testing::field::Field;
use fervolatro_testing::harness::report::shown;
use fervolatro_testing::harness::{Answer, Call, Family, Run, Units, Wanted, FAST, LIBRARY};
use fervolatro_testing::reference::{self, Costs};
use fervolatro_testing::requests::damage::sparse_noise;
use fervolatro_testing::requests::dispatch::{all_faults, any_rows, good_rows, Fault};
use fervolatro_testing::requests::edges;
use fervolatro_testing::requests::faults::Spot;
use fervolatro_testing::Refusal;

/// The most rows of a slice: few, more, and many.
const FEW: usize = 12;
const MORE: usize = 200;
const MANY: usize = 2_000;

/// What a run has to have seen beside the answers.
const GOOD: &str = "good rows";
const NONE: &str = "no rows";
const MOST: &str = "2,000 rows";
const AT_LIMIT: &str = "costs at the limit";
const HALVES: &str = "rows with an amount that ends in a half";

#[test]
fn library_and_reference_agree() {
    Run::over(&FAMILIES, LIBRARY, Units::Own).finish(&wanted());
}

#[test]
fn fast_and_reference_agree() {
    Run::over(&FAMILIES, FAST, Units::Own).finish(&wanted());
}

fn wanted() -> Wanted<'static> {
    let seen = [
        (GOOD, 35_000),
        (NONE, 1_000),
        (MOST, 10),
        (AT_LIMIT, 25_000),
        (HALVES, 20_000),
    ];
    Wanted {
        inputs: 115_000,
        answers: &[("payment", &[0, 16]), ("base cost", &[0, 16])],
        seen: seen.map(|(what, fewest)| (what.to_owned(), fewest)).into(),
    }
}

const FAMILIES: [Family; 11] = [
    ("few good rows", |run| compare_good(run, 20_000, FEW)),
    ("more good rows", |run| compare_good(run, 3_000, MORE)),
    ("many good rows", |run| compare_good(run, 200, MANY)),
    ("single faults", single_faults),
    ("two faults", two_faults),
    ("field edges", field_edges),
    ("truncations", truncations),
    ("every bit", every_bit),
    ("random bits of many rows", random_bits),
    ("noise", noise),
    ("one row of noise", one_row_of_noise),
];

/// All services there are, those beside them, and numbers whose lowest bits are a
/// service's.
const SERVICES: [u64; 16] = [
    0,
    1,
    2,
    3,
    4,
    5,
    6,
    7,
    8,
    9,
    10,
    11,
    256 + 9,
    (1 << 16) + 1,
    (1 << 32) + 10,
    u64::MAX,
];

/// Asks for costs. Of good rows these are the payments of all services and the base costs
/// of several ids; bad ones are refused whatever is asked for. Gives the refusal, if any.
fn compare(run: &mut Run, bytes: &[u8]) -> Option<Refusal> {
    run.input();
    let refusal = match reference::costs(bytes) {
        Ok(costs) => {
            compare_costs(run, bytes, &costs);
            return None;
        }
        Err(refusal) => refusal,
    };
    let service = *run.random.pick(&SERVICES);
    let id = run.random.below(3) as u32;
    for call in [Call::Payment { service }, Call::BaseCost { id, service }] {
        run.expect(call, bytes, Err(refusal));
    }
    Some(refusal)
}

fn compare_costs(run: &mut Run, bytes: &[u8], costs: &Costs) {
    let rows = decode(bytes);
    see(run, &rows);
    for service in SERVICES {
        let call = Call::Payment { service };
        expect(run, call, bytes, costs.payment(service));
    }
    for (id, service) in asked_of(run, &rows) {
        let call = Call::BaseCost { id, service };
        expect(run, call, bytes, costs.base_cost(id, service));
    }
}

/// Counts what good rows are.
fn see(run: &mut Run, rows: &[Row]) {
    run.see(GOOD);
    match rows.len() {
        0 => run.see(NONE),
        MANY => run.see(MOST),
        _ => (),
    }
    if rows.iter().any(ends_in_a_half) {
        run.see(HALVES);
    }
}

fn ends_in_a_half(row: &Row) -> bool {
    u64::from(row.price) * u64::from(row.enablement) % 12 == 6
}

fn expect(run: &mut Run, call: Call, bytes: &[u8], amount: u64) {
    run.expect(call, bytes, Ok(Answer::Amount(amount)));
    if amount == 50_000_000_000 {
        run.see(AT_LIMIT);
    }
}

/// Ids with services: those of some rows, others of the same id or the same service, and
/// the lowest and the highest id.
fn asked_of(run: &mut Run, rows: &[Row]) -> Vec<(u32, u64)> {
    let random = &mut run.random;
    let mut asked = vec![
        (0, *random.pick(&SERVICES)),
        (u32::MAX, *random.pick(&SERVICES)),
    ];
    for spot in Spot::ALL {
        let Some(index) = spot.index(rows.len()) else {
            return asked;
        };
        for row in [rows[index], *random.pick(rows)] {
            let (id, service) = (row.id, u64::from(row.service));
            asked.push((id, service));
            asked.push((id, *random.pick(&SERVICES)));
            asked.push((id.wrapping_add(1), service));
        }
    }
    asked
}

/// Compares so many slices of good rows, with up to so many rows.
fn compare_good(run: &mut Run, slices: usize, most: usize) {
    for _ in 0..slices {
        let bytes = encode(&drawn(run, most));
        let refusal = compare(run, &bytes);
        assert_eq!(refusal, None, "{}", shown(&bytes));
    }
}

/// Good rows, up to so many.
fn drawn(run: &mut Run, most: usize) -> Vec<Row> {
    let count = run.random.edged(0, most as i64) as usize;
    good_rows(&mut run.random, count)
}

/// Each fault alone, in the first, the middle and the last row, of few rows and of more.
/// Each is seen to be refused at the row that it makes bad.
fn single_faults(run: &mut Run) {
    let mut bases: Vec<Vec<Row>> = (0..120).map(|_| drawn(run, FEW)).collect();
    bases.extend((0..30).map(|_| drawn(run, MORE)));
    for fault in all_faults() {
        let mut seen = 0;
        for spot in Spot::ALL {
            for base in &bases {
                seen += u32::from(compare_fault(run, base, fault, spot));
            }
        }
        assert!(seen >= 100, "'{}' was made {seen} times", fault.name);
    }
}

/// Compares the rows with a fault, and tells whether they have a place for it.
fn compare_fault(run: &mut Run, base: &[Row], fault: &Fault, spot: Spot) -> bool {
    let mut rows = base.to_vec();
    let changed = spot.index(rows.len());
    let Some(bad) = changed.and_then(|at| (fault.apply)(&mut rows, at)) else {
        return false;
    };
    let refused = Refusal {
        number: 16,
        place: Row::SIZE * bad,
    };
    let refusal = compare(run, &encode(&rows));
    assert_eq!(refusal, Some(refused), "{}: {rows:?}", fault.name);
    true
}

/// Every fault with every other, also with itself.
fn two_faults(run: &mut Run) {
    for first in all_faults() {
        for second in all_faults() {
            for _ in 0..20 {
                let mut rows = drawn(run, FEW);
                for fault in [first, second] {
                    if let Some(at) = run.random.pick(&Spot::ALL).index(rows.len()) {
                        (fault.apply)(&mut rows, at);
                    }
                }
                compare(run, &encode(&rows));
            }
        }
    }
}

/// Every field of the first, the middle and the last row, just inside and just past both
/// ends of its range.
fn field_edges(run: &mut Run) {
    for round in 0..150 {
        let most = if round % 10 == 0 { MORE } else { FEW };
        let rows = drawn(run, most);
        let mut bytes = encode(&rows);
        for spot in Spot::ALL {
            if let Some(index) = spot.index(rows.len()) {
                let at = Row::SIZE * index;
                edges::each(&mut bytes, at, edges::DISPATCH_ROW, |bytes| {
                    compare(run, bytes);
                });
            }
        }
    }
}

/// Every length: a last row that is cut short is refused, at its own offset.
fn truncations(run: &mut Run) {
    for _ in 0..12 {
        let bytes = encode(&drawn(run, FEW));
        for length in 0..=bytes.len() {
            let whole = length - length % Row::SIZE;
            let cut = (length != whole).then_some(Refusal {
                number: 16,
                place: whole,
            });
            assert_eq!(compare(run, &bytes[..length]), cut, "length {length}");
        }
    }
}

fn every_bit(run: &mut Run) {
    for _ in 0..12 {
        let mut bytes = encode(&drawn(run, FEW));
        let bits = 0..8 * bytes.len();
        run.each_turned_bit(&mut bytes, bits, |run, bytes| {
            compare(run, bytes);
        });
    }
}

fn random_bits(run: &mut Run) {
    for (most, slices) in [(MORE, 40), (MANY, 4)] {
        for _ in 0..slices {
            let mut bytes = encode(&good_rows(&mut run.random, most));
            let bits = run.bits_of(&bytes, 100);
            run.each_turned_bit(&mut bytes, bits, |run, bytes| {
                compare(run, bytes);
            });
        }
    }
}

/// Bytes of any values, with more zeros than others or not, and rows of any fields.
fn noise(run: &mut Run) {
    let mut bytes = [0; Row::SIZE * FEW];
    for _ in 0..10_000 {
        let length = run.random.below(bytes.len() + 1);
        run.random.fill(&mut bytes[..length]);
        compare(run, &bytes[..length]);
        sparse_noise(&mut run.random, &mut bytes[..length]);
        compare(run, &bytes[..length]);
        let rows = any_rows(&mut run.random, length % 6);
        compare(run, &encode(&rows));
    }
}

/// One row replaced: by noise, by zeros, or by another.
fn one_row_of_noise(run: &mut Run) {
    for _ in 0..10_000 {
        let rows = drawn(run, FEW);
        if rows.is_empty() {
            continue;
        }
        let mut bytes = encode(&rows);
        let [row, other] = [0; 2].map(|_: usize| Row::SIZE * run.random.below(rows.len()));
        let replaced = row..row + Row::SIZE;
        match run.random.below(3) {
            0 => run.random.fill(&mut bytes[replaced]),
            1 => bytes[replaced].fill(0),
            _ => bytes.copy_within(other..other + Row::SIZE, row),
        }
        compare(run, &bytes);
    }
}
