//! What the listing program prints for its input.

use super::settle;
use crate::statement::{Line, Statement};

/// "The listing program reads four little-endian bytes of account and then a book
/// from standard input." "A refusal prints `refused N at PLACE`. Fewer than four
/// input bytes count as account 0 and an empty book." "The listing program lends no
/// locked book."
pub fn listing(input: &[u8]) -> String {
    let (account, book) = match input.split_first_chunk() {
        Some((account, book)) => (u32::from_le_bytes(*account), book),
        None => (0, &input[..0]),
    };
    match settle(book, account) {
        Ok(statement) => listed(&statement),
        Err(refusal) => format!("{refusal}\n"),
    }
}

/// "It prints the header, then id, part, regions, unit, dollars."
pub fn listed(statement: &Statement) -> String {
    let of = &statement.header;
    let header = format!(
        "account {} date {} interval {} run {} lines {}\n",
        of.account, of.date, of.interval, of.run, of.lines
    );
    let lines = statement.lines.iter().map(listed_line);
    std::iter::once(header).chain(lines).collect()
}

fn listed_line(line: &Line) -> String {
    let dollars = dollars(line.amount);
    let Line {
        id,
        part,
        regions,
        unit,
        ..
    } = line;
    format!("{id} {part} {regions} {unit} {dollars}\n")
}

/// "Dollars to four places, any minus first."
fn dollars(amount: i64) -> String {
    decimal(amount, 4)
}

/// A number of so many decimal places, any minus first.
pub(super) fn decimal(number: i64, places: usize) -> String {
    let minus = if number < 0 { "-" } else { "" };
    let size = number.unsigned_abs();
    let one = 10_u64.pow(places as u32);
    format!("{minus}{}.{:0places$}", size / one, size % one)
}

#[cfg(test)]
mod tests {
    use super::{dollars, listing};

    #[test]
    fn amounts_are_printed_in_dollars() {
        let cases = [
            (0, "0.0000"),
            (1, "0.0001"),
            (-1, "-0.0001"),
            (-9_999, "-0.9999"),
            (10_000, "1.0000"),
            (-50_000_000_000, "-5000000.0000"),
        ];
        for (amount, printed) in cases {
            assert_eq!(dollars(amount), printed);
        }
    }

    #[test]
    fn short_input_is_an_empty_book() {
        for length in 0..=4 {
            assert_eq!(listing(&[7; 4][..length]), "refused 1 at 0\n");
        }
    }
}
