//! The library's reconciliation files, seen without the reference: by Rust's own reading
//! and printing of numbers, and beside the account's statement.

use fervolatro_testing::books::{Encoded, Pair};
use fervolatro_testing::harness::{Run, Units, LIBRARY};
use fervolatro_testing::requests::generate::Sizes;
use fervolatro_testing::statement::{Line, Statement};
use fervolatro_testing::{library, NmasRow};

/// Takes the files of some accounts of so many books, and shows how many rows they had.
fn rows_of_files(
    book: fn(&mut Run) -> Pair,
    mut rows_of: impl FnMut(&Encoded, u32) -> usize,
) -> usize {
    let mut run = Run::new(LIBRARY, Units::Either);
    let files = (0..3_000).map(|_| {
        let pair = book(&mut run);
        let account = run.some_account(&pair);
        rows_of(&pair.encode(), account)
    });
    files.sum()
}

// By Rust's own numbers.

/// Each field read by Rust's own reading of numbers and written again by its own printing:
/// the same bytes, and the same numbers as the library's rows.
#[test]
fn files_are_rust_s_numbers() {
    let rows = rows_of_files(Run::at_ends, read_from_outside);
    assert!(rows > 2_000, "{rows} rows");
}

fn read_from_outside(bytes: &Encoded, account: u32) -> usize {
    let Ok(text) = library::whole_nmas(bytes, account, 2) else {
        return 0;
    };
    let text = String::from_utf8(text).expect("letters and digits");
    let mut again = String::new();
    for (index, line) in (0..).zip(text.lines()) {
        let fields: Vec<&str> = line.split(',').collect();
        let row = library::nmas_row(text.as_bytes(), index).expect("it is a row");
        assert_eq!(numbers(&fields), row_numbers(&row), "{line}");
        again += &printed(&fields);
    }
    assert_eq!(again, text);
    let rows = text.lines().count();
    assert_eq!(library::nmas_rows(text.as_bytes()), Ok(rows));
    rows
}

/// The columns that are whole numbers, and those with decimals: how many.
const WHOLE: [usize; 5] = [0, 1, 2, 3, 5];
const DECIMAL: [(usize, usize); 9] = [
    (8, 6),
    (9, 4),
    (10, 4),
    (11, 3),
    (12, 3),
    (13, 3),
    (14, 3),
    (15, 4),
    (16, 4),
];

/// Floating point has room for fifteen digits, the file's numbers have up to eleven.
fn float(field: &str) -> f64 {
    field.parse().expect("a number")
}

fn numbers(fields: &[&str]) -> Vec<i64> {
    let whole = WHOLE.map(|at| fields[at].parse::<i64>().expect("a whole number"));
    let decimal = DECIMAL.map(|(at, places)| {
        let one = 10_f64.powi(places as i32);
        (float(fields[at]) * one).round() as i64
    });
    whole.into_iter().chain(decimal).collect()
}

fn row_numbers(row: &NmasRow) -> Vec<i64> {
    vec![
        row.date,
        row.run,
        row.interval,
        row.account,
        row.contract,
        row.factor,
        row.payment,
        row.recovery,
        row.own_ace,
        row.region_ace,
        row.own_asoe,
        row.region_asoe,
        row.by_ace,
        row.by_asoe,
    ]
}

fn printed(fields: &[&str]) -> String {
    let mut printed: Vec<String> = fields.iter().map(|&field| field.to_owned()).collect();
    assert_eq!(
        (printed.len(), &*printed[4], &*printed[6]),
        (17, "RESTART", "COMPENSATION")
    );
    for at in WHOLE {
        printed[at] = fields[at].parse::<u32>().expect("32 bits").to_string();
    }
    for (at, places) in DECIMAL {
        printed[at] = format!("{:.places$}", float(fields[at]));
    }
    printed.join(",") + "\n"
}

// Beside the statement.

/// "Recovery amounts keep our lines' sign": the rows have the contract, the region and the
/// amounts of the statement's lines of parts 9 and 10, in their order, and no others.
#[test]
fn files_have_the_statement_s_amounts() {
    let rows = rows_of_files(|run| run.accepted(Sizes::SMALL), beside_the_statement);
    assert!(rows > 2_000, "{rows} rows");
}

fn beside_the_statement(bytes: &Encoded, account: u32) -> usize {
    let text = library::whole_nmas(bytes, account, 0);
    let statement = library::whole_statement(bytes, account);
    let (Ok(text), Ok(statement)) = (&text, &statement) else {
        assert_eq!(text.err(), statement.err());
        return 0;
    };
    let lines = Statement::decode(statement).lines.into_iter();
    let lines: Vec<Line> = lines.filter(|line| line.part >= 9).collect();
    let (pairs, single) = lines.as_chunks();
    assert_eq!(single, []);
    assert_eq!(library::nmas_rows(text), Ok(pairs.len()));
    for (index, [by_ace, by_asoe]) in (0..).zip(pairs) {
        let row = library::nmas_row(text, index).expect("it is a row");
        assert_eq!((by_ace.part, by_asoe.part), (9, 10));
        assert_eq!((row.by_ace, row.by_asoe), (by_ace.amount, by_asoe.amount));
        assert_eq!(row.contract, by_ace.id.into());
        assert_eq!(1 << row.region, by_ace.regions);
        assert_eq!(row.account, account.into());
    }
    pairs.len()
}
