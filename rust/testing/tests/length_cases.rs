//! Lengths worked out by hand from the scope document (01) and the request for them (02,
//! Req 02): 24 bytes of header and 24 of each line. Library and reference both have to
//! answer them; a buffer of just that length is written, and one byte less is refused.
//!
//! What 01 says of lines: "For mode 0 one line, 1 or 2; else own units in row order (3, 4,
//! 5; mode 2 only 5), then 6, 7, 8 (mode 2 only 8)." "Contracts, each benefiting region
//! rising, 9 then 10." Every account that 11 lets pass has them, of 0 where it has nothing.

use fervolatro_testing::book::{Book, Constraint};
use fervolatro_testing::requests::generate::book_of_longest_statement;
use fervolatro_testing::requests::random::Random;
use fervolatro_testing::requests::worked::{
    book_of, constraint, contract, empty_book, energy_row, small_halves_book, unit_row, worked_book,
};
use fervolatro_testing::{library, reference, Refusal};

/// What a buffer holds before it is lent.
const BEFORE: u8 = 0xa5;

/// Both have to answer this length, and to write the statement in just so much room. One
/// byte less is refused with 13 and holds what it held.
fn assert_length(book: &Book, account: u32, length: usize) {
    let bytes = book.encode();
    assert_eq!(library::length(&bytes, account), Ok(length));
    assert_eq!(reference::length(&bytes, account), Ok(length), "reference");
    let mut just = vec![BEFORE; length];
    let written = library::statement(&bytes, account, &mut just);
    assert_eq!(written, Ok(length));
    assert_eq!(reference::whole_statement(&bytes, account), Ok(just));
    let mut less = vec![BEFORE; length - 1];
    let written = library::statement(&bytes, account, &mut less);
    assert_eq!(written, refused(13, 0));
    assert_eq!(less, vec![BEFORE; length - 1]);
}

/// Both have to refuse the length so, and the library the statement, whatever the room.
fn assert_refused(bytes: &[u8], account: u32, number: u8, place: usize) {
    let refusal = refused(number, place);
    assert_eq!(library::length(bytes, account), refusal);
    assert_eq!(reference::length(bytes, account), refusal, "reference");
    for room in [0, 1_000] {
        let mut buffer = vec![BEFORE; room];
        let written = library::statement(bytes, account, &mut buffer);
        assert_eq!(written, refusal);
        assert_eq!(buffer, vec![BEFORE; room]);
    }
}

fn refused(number: u8, place: usize) -> Result<usize, Refusal> {
    Err(Refusal { number, place })
}

// Every sort of line.

/// Account 7 has three units of the factored constraint, three lines each, and the three
/// residual lines: 12, and 24 + 24 x 12 = 312. Account 9 has two: 9 lines, 24 + 24 x 9 = 240.
#[test]
fn the_worked_interval() {
    assert_length(&worked_book(), 7, 312);
    assert_length(&worked_book(), 9, 240);
}

/// One line, though it is for four regions: 24 + 24 = 48. Account 9 has energy in the fifth
/// alone, and its line all the same.
#[test]
fn a_contingency_constraint() {
    let lower = constraint(1, 2, 0, 0b01111, 1_000);
    let energies = [
        energy_row(7, 0, [-40, 0, 0, 0]),
        energy_row(7, 3, [-10, 0, 0, 0]),
        energy_row(9, 4, [-30, 0, 0, 0]),
    ];
    let book = book_of(&[lower], &[], &energies);
    assert_length(&book, 7, 48);
    assert_length(&book, 9, 48);
}

/// A line for each own unit and one residual line. Account 7 has two units: 3 lines, 24 +
/// 24 x 3 = 96. Account 9 has one: 2 lines, 72. Account 11 has energy alone: 1 line, 48.
/// DCFs -500,000 - 150,000 - 100,000 and DRCF -250,000 make -1,000,000.
#[test]
fn a_default_constraint() {
    let default = Constraint {
        drcf: -250_000,
        ..constraint(1, 10, 2, 1, 500)
    };
    let units = [
        unit_row(1, 1, 7, 0, -500_000),
        unit_row(1, 2, 9, 0, -100_000),
        unit_row(1, 3, 7, 0, -150_000),
    ];
    let energies = [
        energy_row(7, 0, [-30, 20, -30, 20]),
        energy_row(11, 0, [-10, 0, -10, 0]),
    ];
    let book = book_of(&[default], &units, &energies);
    assert_length(&book, 7, 96);
    assert_length(&book, 9, 72);
    assert_length(&book, 11, 48);
}

/// Two lines for each of the two regions that benefit: 4, and 24 + 24 x 4 = 120. The middle
/// region does not benefit, and has none. Account 9 has no energy in the first, and its
/// lines of 0 there.
#[test]
fn a_contract_over_two_regions() {
    let energies = [
        energy_row(7, 0, [-40, 30, 0, 0]),
        energy_row(7, 1, [-40, 30, 0, 0]),
        energy_row(7, 2, [-6, 17, 0, 0]),
        energy_row(9, 2, [-4, 3, 0, 0]),
    ];
    let mut book = book_of(&[], &[], &energies);
    book.contracts = vec![contract(1, 1, 1_000_000, [300_000, 0, 700_000, 0, 0])];
    assert_length(&book, 7, 120);
    assert_length(&book, 9, 120);
}

/// Constraints 1 and 2 are contingencies: 1 line each. Of the default constraint 3 account 7
/// has a unit: 1 and 1. Of the factored constraint 4 both have one: 3 and 3. Contract 1
/// benefits one region: 2. Contract 2 benefits two: 4. Account 7 has 2 + 2 + 6 + 6 = 16
/// lines, 24 + 24 x 16 = 408; account 9 one less, 384.
#[test]
fn lines_of_every_sort() {
    assert_length(&small_halves_book(), 7, 408);
    assert_length(&small_halves_book(), 9, 384);
}

/// Units 4 and 5 of the worked book are account 8's here, which has no energy row: their 6
/// lines and the 3 residual lines, 24 + 24 x 9 = 240. Account 9 has no unit left: 3 lines,
/// 24 + 24 x 3 = 96.
#[test]
fn unit_rows_without_energy_rows() {
    let mut book = worked_book();
    book.units[3].account = 8;
    book.units[4].account = 8;
    assert_length(&book, 8, 240);
    assert_length(&book, 9, 96);
}

/// No constraint and no contract, so no line; but a row names the account, so 11 does not
/// apply: the header alone, 24.
#[test]
fn a_header_alone() {
    let book = book_of(&[], &[], &[energy_row(7, 0, [-40, 30, 0, 0])]);
    assert_length(&book, 7, 24);
    assert_refused(&book.encode(), 8, 11, 0);
}

/// 3 lines of each of 600 units and of each of 64 constraints, 10 of each of 16 contracts:
/// 1,800 + 192 + 160 = 2,152, and 24 + 24 x 2,152 = 51,672.
#[test]
fn the_longest_statement() {
    let (book, account) = book_of_longest_statement(&mut Random::new(2));
    assert_length(&book, account, 51_672);
}

// Refusals.

/// 11: "no unit row and no energy row names the account". No row can name account 0.
#[test]
fn accounts_that_no_row_names() {
    let worked = worked_book().encode();
    for account in [0, 8, u32::MAX] {
        assert_refused(&worked, account, 11, 0);
    }
    assert_refused(&empty_book().encode(), 7, 11, 0);
}

/// A change of the worked book, of 272 bytes, and the number and the place that it is
/// refused with. The constraint stands at 84, the unit rows from 124 on, 20 bytes each.
type Refused = (u8, usize, fn(&mut Book));

const REFUSED: [Refused; 8] = [
    (2, 0, |book| book.header.mark = *b"RCS"),
    (3, 0, |book| book.header.interval = 289),
    (5, 84, |book| book.constraints[0].usage = 1_000_001),
    // (500, 1) twice: the second of the rows, at 124 + 20.
    (6, 144, |book| book.units[1].unit = 1),
    // A sixth unit row, at 124 + 5 x 20, names a constraint that there is not.
    (7, 224, |book| book.units.push(unit_row(501, 1, 7, 0, 0))),
    // -40,000 - 10,000 - 700,000 - 249,999 = -999,999.
    (8, 84, |book| book.constraints[0].drcf = -249_999),
    // Its rows make 1,600,000.
    (9, 24, |book| book.regions[0].residual = 1_599_999),
    // A second constraint, at 84 + 40, raises in QLD1, where no energy is.
    (10, 124, |book| {
        book.constraints.push(constraint(501, 1, 0, 0b00010, 0))
    }),
];

/// 1 to 10 come before 11: accounts 0 and 8, which no row names, get the same.
#[test]
fn refused_books() {
    for (number, place, change) in REFUSED {
        let mut book = worked_book();
        change(&mut book);
        for account in [7, 8, 0] {
            assert_refused(&book.encode(), account, number, place);
        }
    }
}

/// 83 of 272 bytes are no header and entries; 271 are one less than the counts give, and
/// 273 one more.
#[test]
fn books_of_another_length() {
    let mut bytes = worked_book().encode();
    assert_refused(&bytes[..83], 7, 1, 0);
    assert_refused(&bytes[..271], 7, 4, 0);
    bytes.push(0);
    assert_refused(&bytes, 7, 4, 0);
}
