//! The worked interval of the scope document, field by field, the guide's restart contract,
//! and what other books are written down with.

use crate::book::{Book, Constraint, Contract, EnergyRow, Header, UnitRow};
use crate::statement::{self, Line, Statement};

/// A book without records: 84 bytes, accepted.
pub fn empty_book() -> Book {
    Book {
        header: Header {
            mark: *b"RCB",
            version: 1,
            interval: 1,
            date: 20_250_608,
            run: 1,
            ..Header::default()
        },
        ..Book::default()
    }
}

/// The worked book: 272 bytes, accepted.
pub fn worked_book() -> Book {
    let mut book = empty_book();
    book.constraints = vec![Constraint {
        id: 500,
        service: 9,
        regions: 1,
        mode: 1,
        cost: 13_961_300,
        price: 9_855,
        rcr: 90_000,
        usage: 400_000,
        rcf: -300_000,
        drcf: -250_000,
        ..Constraint::default()
    }];
    book.units = vec![
        unit_row(500, 1, 7, 80_000, -40_000),
        unit_row(500, 2, 7, -20_000, -10_000),
        unit_row(500, 3, 7, 30_000, 0),
        unit_row(500, 4, 9, 890_000, 0),
        unit_row(500, 5, 9, -680_000, -700_000),
    ];
    book.energies = vec![
        energy_row(7, 0, [-15_000, 5_000, -15_000, 5_000]),
        energy_row(9, 0, [-1_000_000, 580_000, -1_000_000, 580_000]),
    ];
    // ACE -15,000 - 1,000,000; ASOE 5,000 + 580,000; all of it residual.
    book.regions[0].ace = -1_015_000;
    book.regions[0].asoe = 585_000;
    book.regions[0].residual = 1_600_000;
    book
}

/// A statement of account 7 without lines: 24 bytes, and a statement.
pub fn empty_statement() -> Statement {
    Statement {
        header: statement::Header {
            mark: *b"RCS",
            version: 1,
            interval: 1,
            date: 20_250_608,
            run: 1,
            account: 7,
            ..statement::Header::default()
        },
        lines: Vec::new(),
    }
}

/// Account 7's statement of the worked book, 312 bytes. The lines are those of the
/// scope document's listing: $59.1300 is 591,300 units of money.
pub fn worked_statement() -> Statement {
    let mut statement = empty_statement();
    statement.header.lines = 12;
    statement.lines = vec![
        line(3, 1, 591_300),
        line(4, 1, 0),
        line(5, 1, -335_071),
        line(3, 2, -147_825),
        line(4, 2, -111_690),
        line(5, 2, -83_768),
        line(3, 3, 221_738),
        line(4, 3, 0),
        line(5, 3, 0),
        line(6, 0, -27_717),
        line(7, 0, -20_942),
        line(8, 0, -26_177),
    ];
    statement
}

/// A line of constraint 500, regions 1: part, unit, amount.
fn line(part: u8, unit: u32, amount: i64) -> Line {
    Line {
        id: 500,
        part,
        regions: 1,
        unit,
        amount,
        ..Line::default()
    }
}

/// A unit row: constraint, unit, account, CF, DCF.
pub fn unit_row(constraint: u32, unit: u32, account: u32, cf: i32, dcf: i32) -> UnitRow {
    UnitRow {
        constraint,
        unit,
        account,
        cf,
        dcf,
    }
}

/// An energy row: account, region, then ACE, ASOE, residual ACE, residual ASOE.
pub fn energy_row(account: u32, region: u8, energies: [i32; 4]) -> EnergyRow {
    let [ace, asoe, residual_ace, residual_asoe] = energies;
    EnergyRow {
        account,
        region,
        ace,
        asoe,
        residual_ace,
        residual_asoe,
        ..EnergyRow::default()
    }
}

/// A constraint: id, service, mode, regions, cost.
pub fn constraint(id: u32, service: u8, mode: u8, regions: u8, cost: i64) -> Constraint {
    Constraint {
        id,
        service,
        mode,
        regions,
        cost,
        ..Constraint::default()
    }
}

/// A contract: id, kind, payment, benefit factors.
pub fn contract(id: u32, kind: u8, payment: i64, factors: [u32; 5]) -> Contract {
    Contract {
        id,
        kind,
        payment,
        factors,
        ..Contract::default()
    }
}

/// A book of these records, its entries made from the energy rows.
pub fn book_of(constraints: &[Constraint], units: &[UnitRow], energies: &[EnergyRow]) -> Book {
    let mut book = Book {
        constraints: constraints.to_vec(),
        units: units.to_vec(),
        energies: energies.to_vec(),
        ..empty_book()
    };
    book.total_regions();
    book
}

/// A book of small amounts that end in a half. Accounts 7 and 9 each have one kWh of
/// two, of every kind in NSW1, and of ACE and ASOE in QLD1.
pub fn small_halves_book() -> Book {
    let mut book = book_of(
        &[
            constraint(1, 2, 0, 1, 1),
            constraint(2, 7, 0, 1, 3),
            Constraint {
                drcf: -500_000,
                ..constraint(3, 10, 2, 1, 5)
            },
            Constraint {
                price: 60,
                rcr: 1,
                usage: 500_000,
                rcf: 500_000,
                drcf: -500_000,
                ..constraint(4, 9, 1, 1, 5)
            },
        ],
        &[
            unit_row(3, 1, 7, 0, -500_000),
            unit_row(4, 1, 7, 500_000, -500_000),
            unit_row(4, 2, 9, -1_000_000, 0),
        ],
        &[
            energy_row(7, 0, [-1, 1, -1, 1]),
            energy_row(7, 1, [-1, 1, 0, 0]),
            energy_row(9, 0, [-1, 1, -1, 1]),
            energy_row(9, 1, [-1, 1, 0, 0]),
        ],
    );
    book.contracts = vec![
        contract(1, 1, 5, [1_000_000, 0, 0, 0, 0]),
        contract(2, 1, 3, [500_000, 500_000, 0, 0, 0]),
    ];
    book
}

/// The restart contract of the guide (000, A.4.1): $100, of which NSW1 has 0.3 of the benefit and QLD1 0.7, on 01/01/2025 in
/// period 100. Its energies are in MWh, ours in kWh; account 7 is its CRMP, and account 9
/// has the rest of each region: NSW1 -450 + 40 and 500 - 30, QLD1 -470 + 6 and 440 - 17.
/// Run, contract id and kind of payment are ours, the paper has none.
pub fn paper_book() -> Book {
    let energies = [
        energy_row(7, 0, [-40_000, 30_000, 0, 0]),
        energy_row(7, 1, [-6_000, 17_000, 0, 0]),
        energy_row(9, 0, [-410_000, 470_000, 0, 0]),
        energy_row(9, 1, [-464_000, 423_000, 0, 0]),
    ];
    let mut book = book_of(&[], &[], &energies);
    book.contracts = vec![contract(1, 1, 1_000_000, [300_000, 700_000, 0, 0, 0])];
    book.header.date = 20_250_101;
    book.header.interval = 100;
    book
}

/// The first line of account 7's reconciliation file of that book.
///
/// NSW1: 100 x 0.3 = 30, halves of 15. By ACE 15 x 40 / 450 = 1.33333, by ASOE 15 x 30 /
/// 500 = 0.9: together 2.2333, as the paper has it.
pub const PAPER_NSW1: &str = "20250101,1,100,7,RESTART,1,AVAILABILITY,NSW1,0.300000,100.0000,\
                          -2.2333,-40.000,-450.000,30.000,500.000,-1.3333,-0.9000\n";

/// The second line, and the last.
///
/// QLD1: 100 x 0.7 = 70, halves of 35. By ACE 35 x 6 / 470 = 0.446809, by ASOE 35 x 17 /
/// 440 = 1.352273: 0.4468 + 1.3523 = 1.7991. The paper prints 1.799, and for both regions
/// 4.0324, which is 2.2333 + 1.7991.
pub const PAPER_QLD1: &str = "20250101,1,100,7,RESTART,1,AVAILABILITY,QLD1,0.700000,100.0000,\
                          -1.7991,-6.000,-470.000,17.000,440.000,-0.4468,-1.3523\n";
