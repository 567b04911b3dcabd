//! Payments and base costs worked out by hand from the request for costs (02, Req 01).
//! Library and reference both have to give them.
//!
//! The prices, marginal values and enablements of the operator's paper (001) come first.
//! It prints dollars to the cent; units of money are ten-thousandths of a dollar. Where
//! a printed figure does not follow from the printed numbers, it is said.

use fervolatro_testing::dispatch::{encode, Row};
use fervolatro_testing::{library, reference, Refusal};

const NSW1: u8 = 0;
const QLD1: u8 = 1;
const SA1: u8 = 2;
const TAS1: u8 = 3;
const VIC1: u8 = 4;

/// The services of the paper: 5 Minute is the delayed one.
const RAISE_5_MINUTE: u8 = 7;
const LOWER_5_MINUTE: u8 = 8;
const RAISE_REGULATION: u8 = 9;
const LOWER_REGULATION: u8 = 10;

/// The payment, on which both have to agree.
fn payment(bytes: &[u8], service: u64) -> Result<u64, Refusal> {
    let library = library::payment(bytes, service);
    let reference = reference::payment(bytes, service);
    assert_eq!(library, reference, "service {service}");
    library
}

/// The base cost, on which both have to agree.
fn base_cost(bytes: &[u8], id: u32, service: u64) -> Result<u64, Refusal> {
    let library = library::base_cost(bytes, id, service);
    let reference = reference::base_cost(bytes, id, service);
    assert_eq!(library, reference, "id {id}, service {service}");
    library
}

fn assert_payment(rows: &[Row], service: u8, amount: u64) {
    let paid = payment(&encode(rows), service.into());
    assert_eq!(paid, Ok(amount), "service {service}: {rows:?}");
}

fn assert_base_cost(rows: &[Row], id: u32, service: u8, amount: u64) {
    let cost = base_cost(&encode(rows), id, service.into());
    assert_eq!(cost, Ok(amount), "id {id}, service {service}: {rows:?}");
}

/// Services and ids that are asked for where the answer is the same for all.
const SERVICES: [u64; 7] = [0, 1, 9, 10, 11, 256 + 9, u64::MAX];
const IDS: [u32; 4] = [0, 1, 500, u32::MAX];

/// The bytes are refused at this place, whatever is asked for.
fn assert_bytes_refused(bytes: &[u8], place: usize, why: &str) {
    let refused = Err(Refusal { number: 16, place });
    for service in SERVICES {
        assert_eq!(payment(bytes, service), refused, "{why}");
        for id in IDS {
            assert_eq!(base_cost(bytes, id, service), refused, "{why}");
        }
    }
}

/// The rows are refused at the one of this number, from 0.
fn assert_refused(rows: &[Row], bad: usize, why: &str) {
    assert_bytes_refused(&encode(rows), 16 * bad, why);
}

/// No row is refused.
fn assert_good(rows: &[Row], why: &str) {
    let bytes = encode(rows);
    assert!(payment(&bytes, 9).is_ok(), "{why}: {rows:?}");
    assert!(base_cost(&bytes, 500, 9).is_ok(), "{why}: {rows:?}");
}

/// A row of regulation raise in NSW1, which is good, and of constraint 500.
const PAID: Row = Row::of(0, 9, 0, (9_881, 5_000));
const BOUND: Row = Row::of(500, 9, 0, (9_855, 5_000));

/// The rows of one id and service, in regions from 0 on.
fn rows_of(id: u32, service: u8, pairs: &[(u32, u32)]) -> Vec<Row> {
    let regions = (0..).zip(pairs);
    regions
        .map(|(region, &pair)| Row::of(id, service, region, pair))
        .collect()
}

// The paper's interval without a change of prices, tables 11 to 16.

/// Table 11 with table 12: "price x enablement / 12" of each region.
fn raise_payment_rows() -> Vec<Row> {
    vec![
        Row::of(0, RAISE_5_MINUTE, NSW1, (26, 10_400)),
        Row::of(0, RAISE_5_MINUTE, QLD1, (26, 6_400)),
        Row::of(0, RAISE_5_MINUTE, SA1, (26, 3_600)),
        Row::of(0, RAISE_5_MINUTE, TAS1, (26, 500)),
        Row::of(0, RAISE_5_MINUTE, VIC1, (26, 8_622)),
        Row::of(0, RAISE_REGULATION, NSW1, (9_881, 5_000)),
        Row::of(0, RAISE_REGULATION, QLD1, (9_881, 6_000)),
        Row::of(0, RAISE_REGULATION, SA1, (9_881, 0)),
        Row::of(0, RAISE_REGULATION, TAS1, (8_343, 5_000)),
        Row::of(0, RAISE_REGULATION, VIC1, (9_881, 6_000)),
    ]
}

/// "Document 001's raise regulation prices and enablement are a test: 17,474,333 (its
/// $1,747.45 doesn't follow from them)."
///
/// NSW1 9,881 x 5,000 / 12 = 4,117,083.33: 4,117,083. QLD1 and VIC1 9,881 x 6,000 / 12 =
/// 4,940,500. SA1 0. TAS1 8,343 x 5,000 / 12 = 3,476,250. The five together 4,117,083 +
/// 4,940,500 + 0 + 3,476,250 + 4,940,500 = 17,474,333. The paper has $347.64 for TAS1,
/// which is $347.625, and adds up what it prints: $1,747.45 for $1,747.43.
#[test]
fn raise_regulation() {
    assert_payment(&raise_payment_rows(), RAISE_REGULATION, 17_474_333);
}

/// NSW1 26 x 10,400 / 12 = 22,533.33: 22,533. QLD1 26 x 6,400 / 12 = 13,866.67: 13,867.
/// SA1 26 x 3,600 / 12 = 7,800. TAS1 26 x 500 / 12 = 1,083.33: 1,083. VIC1 26 x 8,622 /
/// 12 = 18,681. Together 63,964, the paper's $6.40; the five are its $2.25, $1.39, $0.78,
/// $0.11 and $1.87.
#[test]
fn raise_5_minute() {
    assert_payment(&raise_payment_rows(), RAISE_5_MINUTE, 63_964);
}

/// The paper's constraints of that interval.
const F_I_R5: u32 = 1;
const F_T_RREG: u32 = 2;
const F_TASCAP_RREG: u32 = 3;

/// Table 14's marginal values with table 12.
fn raise_constraint_rows() -> Vec<Row> {
    vec![
        Row::of(F_I_R5, RAISE_5_MINUTE, NSW1, (26, 10_400)),
        Row::of(F_I_R5, RAISE_5_MINUTE, QLD1, (26, 6_400)),
        Row::of(F_I_R5, RAISE_5_MINUTE, SA1, (26, 3_600)),
        Row::of(F_I_R5, RAISE_5_MINUTE, TAS1, (26, 500)),
        Row::of(F_I_R5, RAISE_5_MINUTE, VIC1, (26, 8_622)),
        Row::of(F_I_R5, RAISE_REGULATION, NSW1, (26, 5_000)),
        Row::of(F_I_R5, RAISE_REGULATION, QLD1, (26, 6_000)),
        Row::of(F_I_R5, RAISE_REGULATION, SA1, (26, 0)),
        Row::of(F_I_R5, RAISE_REGULATION, TAS1, (26, 5_000)),
        Row::of(F_I_R5, RAISE_REGULATION, VIC1, (26, 6_000)),
        Row::of(F_T_RREG, RAISE_REGULATION, TAS1, (8_317, 5_000)),
        Row::of(F_TASCAP_RREG, RAISE_REGULATION, NSW1, (9_855, 5_000)),
        Row::of(F_TASCAP_RREG, RAISE_REGULATION, QLD1, (9_855, 6_000)),
        Row::of(F_TASCAP_RREG, RAISE_REGULATION, SA1, (9_855, 0)),
        Row::of(F_TASCAP_RREG, RAISE_REGULATION, VIC1, (9_855, 6_000)),
    ]
}

/// Tables 15 and 16: the paper shares each region's payment by marginal values. Where the
/// price is the sum of the marginal values, as here, that is marginal value x enablement /
/// 12.
#[test]
fn raise_base_costs() {
    let rows = raise_constraint_rows();
    // As the payments, whose price is this constraint's marginal value alone: $6.40.
    assert_base_cost(&rows, F_I_R5, RAISE_5_MINUTE, 63_964);
    // NSW1 and TAS1 26 x 5,000 / 12 = 10,833.33: 10,833, the paper's $1.08. QLD1 and VIC1
    // 26 x 6,000 / 12 = 13,000, its $1.30. Together 47,666, its $4.77. With the 63,964
    // above that is 111,630, its $11.16 for the constraint.
    assert_base_cost(&rows, F_I_R5, RAISE_REGULATION, 47_666);
    // 8,317 x 5,000 / 12 = 3,465,416.67, that is $346.54. The paper's $346.55 does not
    // follow: it shares its $347.64 for TAS1, which is $347.625, and cuts off 347.64 x
    // 83.17 / 83.43 = 346.5566.
    assert_base_cost(&rows, F_T_RREG, RAISE_REGULATION, 3_465_417);
    // NSW1 9,855 x 5,000 / 12 = 4,106,250, the paper's $410.625. QLD1 and VIC1 9,855 x
    // 6,000 / 12 = 4,927,500, its $492.75. Together 13,961,250, or $1,396.125, which it
    // prints as $1,396.13.
    assert_base_cost(&rows, F_TASCAP_RREG, RAISE_REGULATION, 13_961_250);
    // No payment rows are here.
    assert_payment(&rows, RAISE_REGULATION, 0);
}

/// Payments and base costs in one slice: neither adds to the other.
#[test]
fn raise_rows_together() {
    let rows = [raise_payment_rows(), raise_constraint_rows()].concat();
    assert_payment(&rows, RAISE_REGULATION, 17_474_333);
    assert_payment(&rows, RAISE_5_MINUTE, 63_964);
    assert_base_cost(&rows, F_I_R5, RAISE_REGULATION, 47_666);
    assert_base_cost(&rows, F_TASCAP_RREG, RAISE_REGULATION, 13_961_250);
    assert_base_cost(&rows, F_TASCAP_RREG, RAISE_5_MINUTE, 0);
}

/// Table 5, constraints F_T_RREG (1) and F_T_R5 (2) in Tasmania: $5 and 50 MW, $2 and 20
/// MW; marginal values of $3 and $2.
#[test]
fn table_5() {
    let rows = [
        Row::of(0, RAISE_5_MINUTE, TAS1, (200, 2_000)),
        Row::of(0, RAISE_REGULATION, TAS1, (500, 5_000)),
        Row::of(1, RAISE_REGULATION, TAS1, (300, 5_000)),
        Row::of(2, RAISE_5_MINUTE, TAS1, (200, 2_000)),
        Row::of(2, RAISE_REGULATION, TAS1, (200, 5_000)),
    ];
    // 400,000 / 12 = 33,333.33, the paper's 3.33; 2,500,000 / 12 = 208,333.33, its 20.83.
    assert_payment(&rows, RAISE_5_MINUTE, 33_333);
    assert_payment(&rows, RAISE_REGULATION, 208_333);
    // 1,500,000 / 12 = 125,000, its 12.5.
    assert_base_cost(&rows, 1, RAISE_REGULATION, 125_000);
    // As the payment, its 3.33; 1,000,000 / 12 = 83,333.33, its 8.33. Together 116,666,
    // its 11.67.
    assert_base_cost(&rows, 2, RAISE_5_MINUTE, 33_333);
    assert_base_cost(&rows, 2, RAISE_REGULATION, 83_333);
}

/// Table 7, where the regulation price is $9 after the interval. The payment follows:
/// 900 x 5,000 / 12 = 375,000, the paper's 37.50. Its base costs of 22.5 and 15 do not: it
/// shares the new payment by marginal values, 3/5 and 2/5 of 37.50. Marginal value x
/// enablement / 12 stays 12.5 and 8.33, as in table 5.
#[test]
fn table_7() {
    let rows = [
        Row::of(0, RAISE_REGULATION, TAS1, (900, 5_000)),
        Row::of(1, RAISE_REGULATION, TAS1, (300, 5_000)),
        Row::of(2, RAISE_REGULATION, TAS1, (200, 5_000)),
    ];
    assert_payment(&rows, RAISE_REGULATION, 375_000);
    assert_base_cost(&rows, 1, RAISE_REGULATION, 125_000);
    assert_base_cost(&rows, 2, RAISE_REGULATION, 83_333);
}

// The paper's interval with a change of prices, tables 21 to 26.

/// Table 21 with table 22.
fn lower_payment_rows() -> Vec<Row> {
    vec![
        Row::of(0, LOWER_5_MINUTE, NSW1, (4_999, 28_100)),
        Row::of(0, LOWER_5_MINUTE, QLD1, (4_999, 4_944)),
        Row::of(0, LOWER_5_MINUTE, SA1, (4_999, 900)),
        Row::of(0, LOWER_5_MINUTE, TAS1, (38, 0)),
        Row::of(0, LOWER_5_MINUTE, VIC1, (4_999, 20_698)),
        Row::of(0, LOWER_REGULATION, NSW1, (6_881, 15_500)),
        Row::of(0, LOWER_REGULATION, QLD1, (6_881, 6_600)),
        Row::of(0, LOWER_REGULATION, SA1, (6_881, 0)),
        Row::of(0, LOWER_REGULATION, TAS1, (38, 5_166)),
        Row::of(0, LOWER_REGULATION, VIC1, (6_881, 47)),
    ]
}

/// Table 23. 5 Minute: NSW1 140,471,900 / 12 = 11,705,991.67: 11,705,992, the paper's
/// $1,170.60. QLD1 24,715,056 / 12 = 2,059,588, its $205.96. SA1 4,499,100 / 12 = 374,925,
/// its $37.49. TAS1 0. VIC1 103,469,302 / 12 = 8,622,441.83: 8,622,442; its $862.23 does
/// not follow, nor does its total of $2,276.28, both a cent less. Together 22,762,947.
///
/// Regulation, whose products the paper prints with $49.99 but makes with $68.81: NSW1
/// 106,655,500 / 12 = 8,887,958.33: 8,887,958, its $888.80. QLD1 45,414,600 / 12 =
/// 3,784,550, its $378.46. SA1 0. TAS1 196,308 / 12 = 16,359, its $1.64. VIC1 323,407 / 12
/// = 26,950.58: 26,951; its $2.69 does not follow, a cent less, nor does its total of
/// $1,271.57, which its own five do not make either. Together 12,715,818.
#[test]
fn lower_payments() {
    let rows = lower_payment_rows();
    assert_payment(&rows, LOWER_5_MINUTE, 22_762_947);
    assert_payment(&rows, LOWER_REGULATION, 12_715_818);
}

/// Tables 24 to 26, constraints F_MAIN_L5 (1, $39) and F_T_L5 (2, $0.38).
///
/// F_T_L5 follows: its marginal value is the price still, 38 x 0 = 0 and 38 x 5,166 / 12 =
/// 16,359, the paper's $0 and $1.64. F_MAIN_L5 does not: prices were replaced after the
/// interval, and the paper shares the payments of the new ones, $2,276.28 and $1,269.94,
/// though its marginal value stays. 5 Minute: 109,590,000 / 12 = 9,132,500, 19,281,600 /
/// 12 = 1,606,800, 3,510,000 / 12 = 292,500 and 80,722,200 / 12 = 6,726,850, together
/// 17,758,650. Regulation: 60,450,000 / 12 = 5,037,500, 25,740,000 / 12 = 2,145,000, 0 and
/// 183,300 / 12 = 15,275, together 7,197,775.
#[test]
fn lower_base_costs() {
    let rows = [
        Row::of(1, LOWER_5_MINUTE, NSW1, (3_900, 28_100)),
        Row::of(1, LOWER_5_MINUTE, QLD1, (3_900, 4_944)),
        Row::of(1, LOWER_5_MINUTE, SA1, (3_900, 900)),
        Row::of(1, LOWER_5_MINUTE, VIC1, (3_900, 20_698)),
        Row::of(1, LOWER_REGULATION, NSW1, (3_900, 15_500)),
        Row::of(1, LOWER_REGULATION, QLD1, (3_900, 6_600)),
        Row::of(1, LOWER_REGULATION, SA1, (3_900, 0)),
        Row::of(1, LOWER_REGULATION, VIC1, (3_900, 47)),
        Row::of(2, LOWER_5_MINUTE, TAS1, (38, 0)),
        Row::of(2, LOWER_REGULATION, TAS1, (38, 5_166)),
    ];
    assert_base_cost(&rows, 1, LOWER_5_MINUTE, 17_758_650);
    assert_base_cost(&rows, 1, LOWER_REGULATION, 7_197_775);
    assert_base_cost(&rows, 2, LOWER_5_MINUTE, 0);
    assert_base_cost(&rows, 2, LOWER_REGULATION, 16_359);
}

// What is asked for.

/// "0 without any", and no refusal: an empty slice has no row that is bad.
#[test]
fn no_rows() {
    for service in SERVICES {
        assert_eq!(payment(&[], service), Ok(0));
        for id in IDS {
            assert_eq!(base_cost(&[], id, service), Ok(0));
        }
    }
}

/// "Id 0 marks a payment row; any other id names a constraint." 9,881 x 5,000 / 12 =
/// 4,117,083.33; 9,855 x 5,000 / 12 = 4,106,250.
#[test]
fn one_row() {
    assert_payment(&[PAID], 9, 4_117_083);
    assert_payment(&[PAID], 8, 0);
    // Payment rows are nobody's base cost.
    assert_base_cost(&[PAID], 0, 9, 0);
    assert_base_cost(&[PAID], 500, 9, 0);
    assert_base_cost(&[BOUND], 500, 9, 4_106_250);
    assert_base_cost(&[BOUND], 500, 10, 0);
    assert_base_cost(&[BOUND], 501, 9, 0);
    assert_base_cost(&[BOUND], 0, 9, 0);
    assert_payment(&[BOUND], 9, 0);
}

/// Numbers that are no service's, also with the bits of 9 at their end, and ids that no
/// row names.
#[test]
fn nothing_by_that_name() {
    let bytes = encode(&[PAID, BOUND]);
    for service in [0, 11, 255, 256 + 9, (1 << 32) + 9, u64::MAX] {
        assert_eq!(payment(&bytes, service), Ok(0), "service {service}");
        assert_eq!(base_cost(&bytes, 500, service), Ok(0), "service {service}");
    }
    for id in [0, 1, 499, 501, 500 + (1 << 16), u32::MAX] {
        assert_eq!(base_cost(&bytes, id, 9), Ok(0), "id {id}");
    }
}

/// The lowest and the highest id of a constraint: 12 x 1 / 12 = 1, 24 x 1 / 12 = 2.
#[test]
fn lowest_and_highest_id() {
    let rows = [Row::of(1, 1, 0, (12, 1)), Row::of(u32::MAX, 10, 4, (24, 1))];
    assert_base_cost(&rows, 1, 1, 1);
    assert_base_cost(&rows, u32::MAX, 10, 2);
    assert_base_cost(&rows, u32::MAX - 1, 10, 0);
}

/// "Sums over their rows": 1 + 2 + 3 + 4 + 5, and not the rows before and after them.
#[test]
fn all_regions_of_a_service() {
    let mut rows = rows_of(7, 4, &[(1_200, 1)]);
    let prices = [12, 24, 36, 48, 60];
    rows.extend(rows_of(7, 5, &prices.map(|price| (price, 1))));
    rows.extend(rows_of(7, 6, &[(1_200, 1)]));
    rows.extend(rows_of(8, 5, &[(1_200, 1)]));
    assert_good(&rows, "several services and ids");
    assert_base_cost(&rows, 7, 5, 15);
    assert_base_cost(&rows, 7, 4, 100);
    assert_base_cost(&rows, 8, 5, 100);
}

// Rounding.

/// 5/12, 6/12, 7/12, 11/12, 12/12, 17/12, 18/12, 29/12 and 30/12: nearest, halves up.
#[test]
fn amounts_are_rounded() {
    let products = [
        (0, 0),
        (1, 0),
        (5, 0),
        (6, 1),
        (7, 1),
        (11, 1),
        (12, 1),
        (17, 1),
        (18, 2),
        (29, 2),
        (30, 3),
    ];
    for (product, amount) in products {
        for pair in [(product, 1), (1, product)] {
            assert_payment(&[Row::of(0, 3, 2, pair)], 3, amount);
            assert_base_cost(&[Row::of(9, 3, 2, pair)], 9, 3, amount);
        }
    }
    // 2 x 3 and 3 x 6, of which neither factor is the product.
    assert_payment(&[Row::of(0, 3, 2, (2, 3))], 3, 1);
    assert_payment(&[Row::of(0, 3, 2, (3, 6))], 3, 2);
}

/// "Each product over 12 is rounded", not their sum.
#[test]
fn each_row_is_rounded_by_itself() {
    // Two halves are 1 and 1, where 12/12 is 1.
    assert_payment(&rows_of(0, 1, &[(6, 1); 2]), 1, 2);
    // Five halves are 5, where 30/12 is 2 and a half.
    assert_payment(&rows_of(0, 1, &[(6, 1); 5]), 1, 5);
    // Five times 5/12 are 0, where 25/12 is 2.08.
    assert_payment(&rows_of(0, 1, &[(5, 1); 5]), 1, 0);
    // 7/12 and 5/12 are 1 and 0, where 12/12 is 1 as well.
    assert_payment(&rows_of(0, 1, &[(7, 1), (5, 1)]), 1, 1);
}

// A row out of range. All bad rows here are of id 501, and rise above those before them.

/// The row is refused alone, behind good ones, and before a good one.
fn assert_bad(row: Row, why: &str) {
    let last = Row::of(502, 1, 0, (12, 1));
    assert_good(&[PAID, BOUND, last], "the rows around it");
    assert_refused(&[row], 0, why);
    assert_refused(&[PAID, BOUND, row], 2, why);
    assert_refused(&[row, last], 0, why);
    assert_refused(&[PAID, BOUND, row, last], 2, why);
}

/// "Price u32 in cents, to 2,500,000, enablement u32 in hundredths of a MW, to 1,000,000";
/// services are 1 to 10, regions 0 to 4. Both ends of each are good.
#[test]
fn ranges() {
    for (service, region) in [(1, 0), (1, 4), (10, 0), (10, 4)] {
        let rows = [PAID, BOUND, Row::of(501, service, region, (12, 1))];
        assert_base_cost(&rows, 501, service, 1);
    }
    // 2,500,000 / 12 = 208,333.33 and 1,000,000 / 12 = 83,333.33.
    assert_payment(&[Row::of(0, 1, 0, (2_500_000, 1))], 1, 208_333);
    assert_payment(&[Row::of(0, 1, 0, (1, 1_000_000))], 1, 83_333);
}

/// A price or an enablement that is too high is refused though its product is 0.
#[test]
fn out_of_range() {
    for service in [0, 11, 128 + 1, 255] {
        assert_bad(Row::of(501, service, 0, (12, 1)), "service");
    }
    for region in [5, 8, 128, 255] {
        assert_bad(Row::of(501, 1, region, (12, 1)), "region");
    }
    for bit in 0..16 {
        let reserved = 1 << bit;
        let row = Row::of(501, 1, 0, (12, 1));
        assert_bad(Row { reserved, ..row }, "reserved");
    }
    for price in [2_500_001, 1 << 31, u32::MAX] {
        assert_bad(Row::of(501, 1, 0, (price, 0)), "price");
    }
    for enablement in [1_000_001, 2_500_000, 1 << 31, u32::MAX] {
        assert_bad(Row::of(501, 1, 0, (0, enablement)), "enablement");
    }
}

// Rows that do not rise.

/// A row of nothing.
const fn empty(id: u32, service: u8, region: u8) -> Row {
    Row::of(id, service, region, (0, 0))
}

/// "Rows rise strictly by id, service, region."
#[test]
fn rows_that_do_not_rise() {
    assert_refused(&[BOUND, BOUND], 1, "the same row");
    assert_refused(&[PAID, PAID], 1, "the same payment row");
    let other = Row::of(500, 9, 0, (1, 1));
    assert_refused(&[PAID, BOUND, other], 2, "another price");
    let cases = [
        (empty(2, 1, 0), empty(1, 10, 4), "id"),
        (
            empty(1, 1, 0),
            empty(0, 10, 4),
            "id 0 behind a constraint's",
        ),
        (empty(1, 2, 0), empty(1, 1, 4), "service"),
        (empty(0, 2, 0), empty(0, 1, 4), "service of payments"),
        (empty(1, 1, 1), empty(1, 1, 0), "region"),
        (empty(1, 1, 1), empty(1, 1, 1), "none"),
        // As numbers of four bytes, the lowest first, and without a sign.
        (empty(256, 1, 0), empty(255, 1, 0), "id, by its second byte"),
        (
            empty(1 << 31, 1, 0),
            empty(1, 1, 0),
            "id, by its highest bit",
        ),
    ];
    for (first, second, by) in cases {
        assert_refused(&[first, second], 1, by);
        assert_refused(&[first, second, empty(9_999, 1, 0)], 1, by);
    }
}

/// The first row may be the lowest; then one number rises and those behind it fall.
#[test]
fn rows_that_rise() {
    assert_good(&[empty(0, 1, 0)], "the lowest row");
    let rows = [
        empty(0, 1, 0),
        empty(0, 1, 4),
        empty(0, 2, 0),
        empty(0, 10, 4),
        empty(1, 1, 0),
        empty(255, 10, 4),
        empty(256, 1, 0),
        empty((1 << 31) - 1, 10, 4),
        empty(1 << 31, 1, 0),
        empty(u32::MAX, 10, 4),
    ];
    assert_good(&rows, "rising");
}

// Products and sums at their limits. 600,000,000,000 / 12 = 50,000,000,000.

const LIMIT: u64 = 50_000_000_000;

/// A product of 600,000,000,000.
const WHOLE: (u32, u32) = (600_000, 1_000_000);

/// 2,500,000 x 240,000 = 600,000 x 1,000,000 = 600,000,000,000.
#[test]
fn products_at_their_limit() {
    for pair in [WHOLE, (2_500_000, 240_000)] {
        assert_payment(&[Row::of(0, 1, 0, pair)], 1, LIMIT);
        assert_base_cost(&[Row::of(1, 1, 0, pair)], 1, 1, LIMIT);
    }
    // 600,002,500,000 and 600,001,000,000: one more of either factor.
    assert_bad(Row::of(501, 1, 0, (2_500_000, 240_001)), "product");
    assert_bad(Row::of(501, 1, 0, (600_001, 1_000_000)), "product");
    // 2^21 x 2^19 = 2^40, which is 0 in its lowest 32 bits; the highest there is.
    assert_bad(Row::of(501, 1, 0, (1 << 21, 1 << 19)), "product");
    assert_bad(Row::of(501, 1, 0, (2_500_000, 1_000_000)), "product");
}

/// 957,347 x 626,732 = 1,914,694 x 313,366 = 600,000,000,004 is the least product past the
/// limit that a row in range can have: the three before it have a factor above 2,500,000
/// that is prime (53 x 11,320,754,717, 2 x 13 x 13 x 1,775,147,929 and 3 x 3 x
/// 66,666,666,667). Over 12 it is 50,000,000,000.33, which is rounded to the limit: no sum
/// is passed, and the product alone refuses it. 2,221,087 x 270,138 = 600,000,000,006 is
/// 50,000,000,000 and a half, and passes both.
#[test]
fn products_just_past_their_limit() {
    let pairs = [
        (957_347, 626_732),
        (626_732, 957_347),
        (1_914_694, 313_366),
        (2_221_087, 270_138),
    ];
    for pair in pairs {
        assert_bad(Row::of(501, 1, 0, pair), "product");
        assert_refused(&[Row::of(0, 1, 0, pair)], 0, "product of a payment");
    }
}

/// 599,999,999,994 = 6 x 99,999,999,999 = 1,169,046 x 513,239: over 12 it is
/// 49,999,999,999 and a half.
const HALF_BELOW: (u32, u32) = (1_169_046, 513_239);

/// 2,400,000 x 200,000 / 12, and 2,400,000 x 50,000 / 12.
const FORTY_BILLION: (u32, u32) = (2_400_000, 200_000);
const TEN_BILLION: (u32, u32) = (2_400_000, 50_000);

/// 335,532 x 357,641 = 120,000,000,012; / 12 = 10,000,000,001.
const TEN_BILLION_AND_ONE: (u32, u32) = (335_532, 357_641);

/// "Takes a sum past 50,000,000,000": as much is not past it.
#[test]
fn sums_at_their_limit() {
    let good: [&[(u32, u32)]; 6] = [
        &[FORTY_BILLION, TEN_BILLION],
        &[TEN_BILLION, FORTY_BILLION],
        &[TEN_BILLION; 5],
        &[WHOLE, (0, 0), (2_500_000, 0), (0, 1_000_000), (5, 1)],
        &[HALF_BELOW],
        // 5/12 is 0 four times, though exactly it is 1.67 more than the limit.
        &[WHOLE, (5, 1), (5, 1), (5, 1), (1, 5)],
    ];
    for pairs in good {
        assert_payment(&rows_of(0, 1, pairs), 1, LIMIT);
        assert_base_cost(&rows_of(1, 10, pairs), 1, 10, LIMIT);
    }
}

#[test]
fn sums_one_past_their_limit() {
    let bad: [(&[(u32, u32)], usize); 7] = [
        (&[FORTY_BILLION, TEN_BILLION_AND_ONE], 1),
        (&[TEN_BILLION_AND_ONE, FORTY_BILLION], 1),
        (&[TEN_BILLION_AND_ONE, FORTY_BILLION, (0, 0)], 1),
        (
            &[
                TEN_BILLION,
                TEN_BILLION,
                TEN_BILLION,
                TEN_BILLION,
                TEN_BILLION_AND_ONE,
            ],
            4,
        ),
        (
            &[
                TEN_BILLION_AND_ONE,
                TEN_BILLION,
                TEN_BILLION,
                TEN_BILLION,
                TEN_BILLION,
            ],
            4,
        ),
        (&[WHOLE, (0, 0), (6, 1)], 2),
        // Exactly the two make 600,000,000,000 / 12, the limit; but each half is 1.
        (&[HALF_BELOW, (6, 1)], 1),
    ];
    for (pairs, last) in bad {
        assert_refused(&rows_of(0, 1, pairs), last, "sum of a payment");
        assert_refused(&rows_of(7, 10, pairs), last, "sum of a base cost");
        let rows = [vec![PAID, BOUND], rows_of(501, 3, pairs)].concat();
        assert_refused(&rows, 2 + last, "sum behind other rows");
    }
    assert_refused(&rows_of(1, 1, &[WHOLE, WHOLE]), 1, "twice the limit");
}

/// The sum is that of the row's own id and service.
#[test]
fn sums_of_other_ids_and_services() {
    let rows = [
        Row::of(0, 1, 0, WHOLE),
        Row::of(0, 2, 0, WHOLE),
        Row::of(1, 1, 4, WHOLE),
        Row::of(1, 2, 0, WHOLE),
        Row::of(2, 2, 1, WHOLE),
        Row::of(2, 2, 3, (5, 1)),
    ];
    for service in [1, 2] {
        assert_payment(&rows, service, LIMIT);
        assert_base_cost(&rows, 1, service, LIMIT);
    }
    assert_base_cost(&rows, 2, 2, LIMIT);
    // A service begins anew, and so does its sum.
    let mut rows = rows_of(3, 1, &[TEN_BILLION; 5]);
    rows.extend(rows_of(3, 2, &[TEN_BILLION; 5]));
    rows.extend(rows_of(4, 2, &[TEN_BILLION, TEN_BILLION, TEN_BILLION]));
    assert_base_cost(&rows, 3, 2, LIMIT);
    assert_base_cost(&rows, 4, 2, 30_000_000_000);
}

// The place.

/// "A last piece of 1 to 15 bytes" is a row cut short, whatever it holds.
#[test]
fn rows_cut_short() {
    let good = encode(&[PAID, BOUND]);
    let third = encode(&[Row::of(501, 1, 0, (12, 1))]);
    for length in [1, 8, 15] {
        for piece in [&third[..length], &[0; 15][..length], &[0xff; 15][..length]] {
            assert_bytes_refused(piece, 0, "a piece alone");
            let behind = [&good[..], piece].concat();
            assert_bytes_refused(&behind, 32, "a piece behind two rows");
        }
    }
    let whole = [&good[..], &third].concat();
    assert_eq!(base_cost(&whole, 501, 1), Ok(1));
}

/// The first bad row is the place, whatever is wrong with it and with those behind it.
#[test]
fn several_faults() {
    let bad_service = Row::of(501, 0, 0, (12, 1));
    let worse = Row {
        reserved: 1,
        ..Row::of(0, 11, 5, (2_500_001, 1_000_001))
    };
    assert_bad(Row::of(501, 0, 5, (12, 1)), "service and region");
    assert_refused(&[PAID, BOUND, worse], 2, "everything");
    assert_refused(&[PAID, bad_service, worse], 1, "two bad rows");
    assert_refused(&[PAID, worse, bad_service], 1, "two bad rows, turned");
    assert_refused(&[PAID, PAID, worse], 1, "not rising, then out of range");
    assert_refused(&[PAID, worse, PAID], 1, "out of range, then not rising");
    let sum = rows_of(501, 1, &[WHOLE, (6, 1)]);
    let rows = [vec![PAID], sum.clone(), vec![worse]].concat();
    assert_refused(&rows, 2, "a sum, then out of range");
    let rows = [vec![bad_service], sum].concat();
    assert_refused(&rows, 0, "out of range, then a sum");
    // Past the product's limit, and by the second row past the sum's.
    assert_refused(&rows_of(1, 1, &[WHOLE, (600_001, 1_000_000)]), 1, "both");
    let mut bytes = encode(&[PAID, worse]);
    bytes.push(0);
    assert_bytes_refused(&bytes, 16, "out of range, then cut short");
}

/// A row behind all that is asked for is checked as any other.
#[test]
fn a_bad_row_behind_the_last_that_is_asked_for() {
    let mut rows = raise_payment_rows();
    assert_payment(&rows, RAISE_5_MINUTE, 63_964);
    rows.push(Row::of(u32::MAX, 10, 5, (0, 0)));
    assert_refused(&rows, 10, "behind ten good rows");
}
