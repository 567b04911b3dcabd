//! Books whose answers were worked out by hand from the scope document (01).
//! Library and reference both have to give them.
//!
//! Two books are changed, one thing at a time. In the worked book, of 272 bytes,
//! the entries stand at 24, 36, 48, 60 and 72, the constraint at 84, the unit
//! rows at 124, 144, 164, 184 and 204, the energy rows at 224 and 248. The mixed
//! book, below, has records of every kind. Before the change each is lent as the locked
//! book, for the test contract of the mixed book; `locked_cases.rs` has the others.

use std::fs;

use fervolatro_testing::book::{Book, Constraint, Contract};
use fervolatro_testing::requests::worked::{empty_book, energy_row, unit_row, worked_book};
use fervolatro_testing::{in_repository, library, reference, Books, Refusal};

/// The number and the place of an answer. As for the library, 0 is acceptance.
type Answer = (u8, usize);

const ACCEPTED: Answer = (0, 0);

/// A book, what is changed in its records and then in its bytes, and the answer
/// it has to get.
struct Case {
    answer: Answer,
    name: &'static str,
    base: fn() -> Book,
    change: fn(&mut Book),
    change_bytes: fn(&mut Vec<u8>),
}

impl Case {
    fn book(&self) -> Vec<u8> {
        let mut book = (self.base)();
        (self.change)(&mut book);
        let mut bytes = book.encode();
        (self.change_bytes)(&mut bytes);
        bytes
    }
}

const fn case(
    answer: Answer,
    name: &'static str,
    base: fn() -> Book,
    change: fn(&mut Book),
) -> Case {
    Case {
        answer,
        name,
        base,
        change,
        change_bytes: |_| {},
    }
}

/// The book without records, changed.
const fn empty(answer: Answer, name: &'static str, change: fn(&mut Book)) -> Case {
    case(answer, name, empty_book, change)
}

/// The worked book, changed.
const fn worked(answer: Answer, name: &'static str, change: fn(&mut Book)) -> Case {
    case(answer, name, worked_book, change)
}

/// The mixed book, changed.
const fn mixed(answer: Answer, name: &'static str, change: fn(&mut Book)) -> Case {
    case(answer, name, mixed_book, change)
}

/// The worked book, changed in its bytes.
const fn bytes(answer: Answer, name: &'static str, change_bytes: fn(&mut Vec<u8>)) -> Case {
    Case {
        change_bytes,
        ..case(answer, name, worked_book, |_| {})
    }
}

#[test]
fn books_get_the_answers_worked_out_by_hand() {
    let tables = [
        NAMED_BY_01,
        CHECK_1,
        CHECK_2,
        CHECK_3,
        CHECK_4,
        CHECK_5_ENTRIES,
        CHECK_5_CONSTRAINTS,
        CHECK_5_MODES,
        CHECK_5_UNIT_ROWS,
        CHECK_5_ENERGY_ROWS,
        CHECK_5_CONTRACTS,
        CHECK_6,
        CHECK_7,
        CHECK_8,
        CHECK_9,
        CHECK_10,
    ];
    for case in tables.into_iter().flatten() {
        let (book, locked) = (case.book(), (case.base)().encode());
        let books = Books::of(&book, &locked);
        let reference = answer(reference::check(books));
        assert_eq!(reference, case.answer, "reference: {}", case.name);
        let library = answer(library::check(books));
        assert_eq!(library, case.answer, "library: {}", case.name);
    }
}

fn answer(result: Result<(), Refusal>) -> Answer {
    match result {
        Ok(()) => ACCEPTED,
        Err(Refusal { number, place }) => (number, place),
    }
}

#[test]
fn the_worked_book_on_file_is_the_one_built_here() {
    let file = fs::read(in_repository("books/worked.book")).expect("books/worked.book can be read");
    assert_eq!(file.len(), 272);
    assert_eq!(file, worked_book().encode());
}

/// A book with records of every kind, 472 bytes, accepted.
///
/// | Offset | Record |
/// |---|---|
/// | 24 to 72 | entries; NSW1 -1,000, 500, 150; SA1 -300, 0, 300; VIC1 0, 250, 250 |
/// | 84, 124 | raise contingency 10 in NSW1; lower contingency 20 in NSW1 and SA1 |
/// | 164, 204 | factored 30 in NSW1 and VIC1; default 40 in SA1 |
/// | 244, 264, 284 | unit rows (30, 1), (30, 2), (40, 1) |
/// | 304 to 376 | energy rows (7, NSW1), (7, SA1), (9, NSW1), (9, VIC1) |
/// | 400, 436 | contracts 1 and 2, both for NSW1 |
fn mixed_book() -> Book {
    let mut book = empty_book();
    book.constraints = vec![
        constraint(10, 1, 0, 0b00001, 1_000),
        constraint(20, 2, 0, 0b00101, 0),
        // CF -1,000,000 + 600,000 and RCF 400,000 make 0, the negative ones
        // -1,000,000; DCF -900,000 and DRCF -100,000 make -1,000,000.
        Constraint {
            price: 100,
            rcr: 200,
            usage: 300,
            rcf: 400_000,
            drcf: -100_000,
            ..constraint(30, 9, 1, 0b10001, 500)
        },
        // DCF -750,000 and DRCF -250,000 make -1,000,000.
        Constraint {
            drcf: -250_000,
            ..constraint(40, 10, 2, 0b00100, 500)
        },
    ];
    book.units = vec![
        unit_row(30, 1, 7, -1_000_000, -900_000),
        unit_row(30, 2, 9, 600_000, 0),
        unit_row(40, 1, 7, 0, -750_000),
    ];
    book.energies = vec![
        energy_row(7, 0, [-600, 400, -100, 50]),
        energy_row(7, 2, [-300, 0, -300, 0]),
        energy_row(9, 0, [-400, 100, 0, 0]),
        energy_row(9, 4, [0, 250, 0, 250]),
    ];
    book.contracts = vec![contract(1, 1, 1_000), contract(2, 2, 0)];
    set_entry(&mut book, 0, [-1_000, 500, 150]);
    set_entry(&mut book, 2, [-300, 0, 300]);
    set_entry(&mut book, 4, [0, 250, 250]);
    book
}

fn constraint(id: u32, service: u8, mode: u8, regions: u8, cost: i64) -> Constraint {
    Constraint {
        id,
        service,
        mode,
        regions,
        cost,
        ..Constraint::default()
    }
}

/// A contract for the benefit of NSW1 alone.
fn contract(id: u32, kind: u8, payment: i64) -> Contract {
    Contract {
        id,
        kind,
        payment,
        factors: [1_000_000, 0, 0, 0, 0],
        ..Contract::default()
    }
}

/// Sets total ACE, total ASOE and residual total of a region.
fn set_entry(book: &mut Book, region: usize, [ace, asoe, residual]: [i32; 3]) {
    let entry = &mut book.regions[region];
    (entry.ace, entry.asoe, entry.residual) = (ace, asoe, residual);
}

/// The run cases that 01 names.
const NAMED_BY_01: &[Case] = &[
    worked(ACCEPTED, "the worked book", |_| {}),
    // Its rows make 15,000 + 5,000 + 1,000,000 + 580,000 = 1,600,000.
    worked((9, 24), "residual total 1,599,999", |book| {
        book.regions[0].residual = 1_599_999
    }),
    worked((3, 0), "interval 0", |book| book.header.interval = 0),
    worked((3, 0), "interval 289", |book| book.header.interval = 289),
    worked(ACCEPTED, "interval 288", |book| book.header.interval = 288),
    worked((5, 84), "usage 1,000,001", |book| {
        book.constraints[0].usage = 1_000_001
    }),
];

/// "Book shorter than 84 bytes."
const CHECK_1: &[Case] = &[
    bytes((1, 0), "no bytes", Vec::clear),
    bytes((1, 0), "one byte", |bytes| bytes.truncate(1)),
    bytes((1, 0), "83 bytes", |bytes| bytes.truncate(83)),
    // The mark would be 2, which is looked for later.
    bytes((1, 0), "83 bytes without a mark", |bytes| {
        *bytes = vec![0xff; 83]
    }),
    empty(ACCEPTED, "84 bytes, no records", |_| {}),
];

/// "Mark, version or a reserved header byte wrong": bytes 0 to 5, 22 and 23.
const CHECK_2: &[Case] = &[
    bytes((2, 0), "84 zero bytes", |bytes| *bytes = vec![0; 84]),
    worked((2, 0), "small r", |book| book.header.mark = *b"rCB"),
    worked((2, 0), "small c", |book| book.header.mark = *b"RcB"),
    worked((2, 0), "mark of a statement", |book| {
        book.header.mark = *b"RCS"
    }),
    bytes((2, 0), "reserved byte after the mark", |bytes| bytes[3] = 1),
    worked((2, 0), "version 0", |book| book.header.version = 0),
    worked((2, 0), "version 2", |book| book.header.version = 2),
    // 257 is 1 in its low byte.
    worked((2, 0), "version 257", |book| book.header.version = 257),
    bytes((2, 0), "first reserved byte at the end", |bytes| {
        bytes[22] = 1
    }),
    bytes((2, 0), "last reserved byte", |bytes| bytes[23] = 0x80),
    worked((2, 0), "2 before 3: mark and interval", |book| {
        (book.header.mark[0], book.header.interval) = (b'S', 0)
    }),
    bytes((2, 0), "2 before 4: mark and length", |bytes| {
        bytes[0] = b'S';
        bytes.push(0);
    }),
];

/// "Interval, date, run or a count out of its range."
const CHECK_3: &[Case] = &[
    // 2028 = 4 x 507 is a leap year, 2027 is not.
    worked(ACCEPTED, "29 February 2028", |book| {
        book.header.date = 20_280_229
    }),
    worked((3, 0), "29 February 2027", |book| {
        book.header.date = 20_270_229
    }),
    worked((3, 0), "30 February 2028", |book| {
        book.header.date = 20_280_230
    }),
    worked(ACCEPTED, "first date", |book| book.header.date = 20_250_101),
    worked((3, 0), "the day before", |book| {
        book.header.date = 20_241_231
    }),
    worked(ACCEPTED, "last date", |book| book.header.date = 20_991_231),
    worked((3, 0), "the day after", |book| {
        book.header.date = 21_000_101
    }),
    worked(ACCEPTED, "30 April", |book| book.header.date = 20_250_430),
    worked((3, 0), "31 April", |book| book.header.date = 20_250_431),
    worked((3, 0), "day 0", |book| book.header.date = 20_250_600),
    worked((3, 0), "day 32", |book| book.header.date = 20_250_732),
    worked((3, 0), "month 0", |book| book.header.date = 20_250_008),
    worked((3, 0), "month 13", |book| book.header.date = 20_251_308),
    worked((3, 0), "run 0", |book| book.header.run = 0),
    worked(ACCEPTED, "run 99", |book| book.header.run = 99),
    worked((3, 0), "run 100", |book| book.header.run = 100),
    // The counts are at 14, 16, 18 and 20. Of each pair the first is in range
    // and only the length does not go with it.
    bytes((4, 0), "64 constraints", |bytes| bytes[14] = 64),
    bytes((3, 0), "65 constraints", |bytes| bytes[14] = 65),
    // 600 = 2 x 256 + 88.
    bytes((4, 0), "600 unit rows", |bytes| {
        bytes[16..18].copy_from_slice(&[88, 2])
    }),
    bytes((3, 0), "601 unit rows", |bytes| {
        bytes[16..18].copy_from_slice(&[89, 2])
    }),
    // 1,024 = 4 x 256.
    bytes((4, 0), "1,024 energy rows", |bytes| {
        bytes[18..20].copy_from_slice(&[0, 4])
    }),
    bytes((3, 0), "1,025 energy rows", |bytes| {
        bytes[18..20].copy_from_slice(&[1, 4])
    }),
    bytes((4, 0), "16 contracts", |bytes| bytes[20] = 16),
    bytes((3, 0), "17 contracts", |bytes| bytes[20] = 17),
    // All 17 are there, so the length is right.
    mixed((3, 0), "17 contracts with their bytes", |book| {
        book.contracts = (1..=17).map(|id| contract(id, 1, 0)).collect()
    }),
    mixed(ACCEPTED, "16 contracts with their bytes", |book| {
        book.contracts = (1..=16).map(|id| contract(id, 1, 0)).collect()
    }),
];

/// "Length differs from what the counts give": 84 + 40 + 5 x 20 + 2 x 24 = 272.
const CHECK_4: &[Case] = &[
    bytes((4, 0), "271 bytes", |bytes| bytes.truncate(271)),
    bytes((4, 0), "273 bytes", |bytes| bytes.push(0)),
    bytes((4, 0), "header and entries alone", |bytes| {
        bytes.truncate(84)
    }),
    Case {
        change_bytes: |bytes| bytes.push(0),
        ..empty((4, 0), "85 bytes, no records", |_| {})
    },
    // 20 bytes more are asked for.
    bytes((4, 0), "a unit row counted too many", |bytes| bytes[16] = 6),
    bytes((4, 0), "no energy row counted", |bytes| bytes[18] = 0),
    bytes((4, 0), "4 before 5: length and service", |bytes| {
        bytes[88] = 0;
        bytes.truncate(271);
    }),
];

/// Entries: ACE -20,000,000 to 0, the other two 0 to 20,000,000.
const CHECK_5_ENTRIES: &[Case] = &[
    worked((5, 24), "total ACE 1", |book| book.regions[0].ace = 1),
    worked((5, 24), "total ACE too low", |book| {
        book.regions[0].ace = -20_000_001
    }),
    // In range, but not what the rows make.
    worked((9, 24), "total ACE lowest", |book| {
        book.regions[0].ace = -20_000_000
    }),
    worked((5, 36), "total ASOE -1", |book| book.regions[1].asoe = -1),
    worked((5, 48), "total ASOE too high", |book| {
        book.regions[2].asoe = 20_000_001
    }),
    worked((5, 60), "residual total -1", |book| {
        book.regions[3].residual = -1
    }),
    worked((5, 72), "residual total too high", |book| {
        book.regions[4].residual = 20_000_001
    }),
    worked((9, 72), "residual total highest", |book| {
        book.regions[4].residual = 20_000_000
    }),
    // 36 is lower than 84.
    worked((5, 36), "an entry and a constraint", |book| {
        (book.regions[1].ace, book.constraints[0].id) = (1, 0)
    }),
    // ACE -20,000,000 + 0, ASOE 0 + 20,000,000, residual 20,000,000 + 0.
    worked(ACCEPTED, "entries at their ends", |book| {
        book.energies[0] = energy_row(7, 0, [-20_000_000, 0, -20_000_000, 0]);
        book.energies[1] = energy_row(9, 0, [0, 20_000_000, 0, 0]);
        set_entry(book, 0, [-20_000_000, 20_000_000, 20_000_000]);
    }),
];

/// The ranges of a constraint's fields; the first stands at 84 in both books.
const CHECK_5_CONSTRAINTS: &[Case] = &[
    worked((5, 84), "id 0", |book| book.constraints[0].id = 0),
    // A contingency, so that 0 is wrong by its range alone.
    mixed((5, 84), "service 0", |book| book.constraints[0].service = 0),
    worked((5, 84), "service 11", |book| {
        book.constraints[0].service = 11
    }),
    worked((5, 84), "no regions", |book| {
        book.constraints[0].regions = 0
    }),
    worked((5, 84), "regions 32", |book| {
        book.constraints[0].regions = 32
    }),
    worked(ACCEPTED, "regions 31", |book| {
        book.constraints[0].regions = 31
    }),
    worked((5, 84), "reserved byte", |book| {
        book.constraints[0].reserved = 1
    }),
    worked((5, 84), "cost -1", |book| book.constraints[0].cost = -1),
    worked(ACCEPTED, "cost 50,000,000,000", |book| {
        book.constraints[0].cost = 50_000_000_000
    }),
    worked((5, 84), "cost one more", |book| {
        book.constraints[0].cost = 50_000_000_001
    }),
    // 2,500,000 x 90,000 = 225,000,000,000, well within the product's bound.
    worked(ACCEPTED, "price 2,500,000", |book| {
        book.constraints[0].price = 2_500_000
    }),
    worked((5, 84), "price one more", |book| {
        book.constraints[0].price = 2_500_001
    }),
    // 9,855 x 10,000,000 = 98,550,000,000.
    worked(ACCEPTED, "RCR 10,000,000", |book| {
        book.constraints[0].rcr = 10_000_000
    }),
    worked((5, 84), "RCR one more", |book| {
        book.constraints[0].rcr = 10_000_001
    }),
    worked(
        ACCEPTED,
        "2,500,000 x 2,400,000 = 6,000,000,000,000",
        |book| (book.constraints[0].price, book.constraints[0].rcr) = (2_500_000, 2_400_000),
    ),
    worked((5, 84), "RCR one past that product", |book| {
        (book.constraints[0].price, book.constraints[0].rcr) = (2_500_000, 2_400_001)
    }),
    // No two numbers in range have a product nearer above the bound.
    worked((5, 84), "908,289 x 6,605,827 = 6,000,000,000,003", |book| {
        (book.constraints[0].price, book.constraints[0].rcr) = (908_289, 6_605_827)
    }),
    worked(ACCEPTED, "usage 1,000,000", |book| {
        book.constraints[0].usage = 1_000_000
    }),
    worked((5, 84), "RCF too high", |book| {
        book.constraints[0].rcf = 1_000_001
    }),
    worked((5, 84), "RCF too low", |book| {
        book.constraints[0].rcf = -1_000_001
    }),
    // In range, but the factors no longer add to 0.
    worked((8, 84), "RCF lowest", |book| {
        book.constraints[0].rcf = -1_000_000
    }),
    worked((5, 84), "DRCF 1", |book| book.constraints[0].drcf = 1),
    worked((5, 84), "DRCF too low", |book| {
        book.constraints[0].drcf = -1_000_001
    }),
    bytes((5, 84), "first reserved byte at the end", |bytes| {
        bytes[84 + 36] = 1
    }),
    bytes((5, 84), "last reserved byte", |bytes| bytes[84 + 39] = 1),
];

/// "Mode 0 goes with services 1 to 8 and has price, RCR, usage, RCF, DRCF all 0.
/// Mode 1 and mode 2 go with 9 and 10. Mode 2 has price, RCR, usage, RCF all 0."
/// In the mixed book mode 0 stands at 84 and 124, mode 1 at 164, mode 2 at 204.
const CHECK_5_MODES: &[Case] = &[
    mixed(ACCEPTED, "the mixed book", |_| {}),
    mixed((5, 124), "contingency, service 9", |book| {
        book.constraints[1].service = 9
    }),
    mixed(ACCEPTED, "contingency, service 8", |book| {
        book.constraints[1].service = 8
    }),
    mixed((5, 164), "factored, service 8", |book| {
        book.constraints[2].service = 8
    }),
    mixed(ACCEPTED, "factored, service 10", |book| {
        book.constraints[2].service = 10
    }),
    mixed((5, 204), "default, service 1", |book| {
        book.constraints[3].service = 1
    }),
    mixed(ACCEPTED, "default, service 9", |book| {
        book.constraints[3].service = 9
    }),
    mixed((5, 164), "mode 3", |book| book.constraints[2].mode = 3),
    mixed((5, 84), "contingency with a price", |book| {
        book.constraints[0].price = 1
    }),
    mixed((5, 84), "contingency with an RCR", |book| {
        book.constraints[0].rcr = 1
    }),
    mixed((5, 84), "contingency with a usage", |book| {
        book.constraints[0].usage = 1
    }),
    mixed((5, 84), "contingency with an RCF", |book| {
        book.constraints[0].rcf = 1
    }),
    mixed((5, 84), "contingency with a DRCF", |book| {
        book.constraints[0].drcf = -1
    }),
    mixed((5, 204), "default with a price", |book| {
        book.constraints[3].price = 1
    }),
    mixed((5, 204), "default with an RCR", |book| {
        book.constraints[3].rcr = 1
    }),
    mixed((5, 204), "default with a usage", |book| {
        book.constraints[3].usage = 1
    }),
    mixed((5, 204), "default with an RCF", |book| {
        book.constraints[3].rcf = -1
    }),
];

/// The ranges of a unit row's fields; the rows stand at 124, 144 and so on.
const CHECK_5_UNIT_ROWS: &[Case] = &[
    // Not 7: the id itself is out of range.
    worked((5, 124), "constraint 0", |book| {
        book.units[0].constraint = 0
    }),
    worked((5, 144), "unit 0", |book| book.units[1].unit = 0),
    worked((5, 164), "account 0", |book| book.units[2].account = 0),
    worked((5, 184), "CF too high", |book| book.units[3].cf = 1_000_001),
    worked((5, 204), "CF too low", |book| book.units[4].cf = -1_000_001),
    worked((5, 124), "DCF 1", |book| book.units[0].dcf = 1),
    worked((5, 204), "DCF too low", |book| {
        book.units[4].dcf = -1_000_001
    }),
    // In range; the sums of constraint 500 then fail.
    worked((8, 84), "CF highest", |book| book.units[3].cf = 1_000_000),
    worked((5, 144), "two rows", |book| {
        (book.units[3].unit, book.units[1].dcf) = (0, 1)
    }),
];

/// The ranges of an energy row's fields. In the worked book the first, at 224,
/// has ACE -15,000 and ASOE 5,000.
const CHECK_5_ENERGY_ROWS: &[Case] = &[
    worked((5, 224), "account 0", |book| book.energies[0].account = 0),
    worked((5, 248), "region 5", |book| book.energies[1].region = 5),
    worked((5, 224), "first reserved byte", |book| {
        book.energies[0].reserved[0] = 1
    }),
    worked((5, 224), "second reserved byte", |book| {
        book.energies[0].reserved[1] = 1
    }),
    worked((5, 248), "third reserved byte", |book| {
        book.energies[1].reserved[2] = 1
    }),
    worked((5, 224), "ACE 1", |book| book.energies[0].ace = 1),
    worked((5, 248), "ACE too low", |book| {
        book.energies[1].ace = -20_000_001
    }),
    worked((9, 24), "ACE lowest", |book| {
        book.energies[1].ace = -20_000_000
    }),
    worked((5, 224), "ASOE too high", |book| {
        book.energies[0].asoe = 20_000_001
    }),
    worked((5, 224), "ASOE and its residual -1", |book| {
        (book.energies[0].asoe, book.energies[0].residual_asoe) = (-1, -1)
    }),
    worked((5, 224), "residual ACE below ACE", |book| {
        book.energies[0].residual_ace = -15_001
    }),
    // From ACE up to 0: allowed, but the entry says 1,600,000.
    worked((9, 24), "residual ACE one above ACE", |book| {
        book.energies[0].residual_ace = -14_999
    }),
    worked((5, 248), "residual ACE 1", |book| {
        book.energies[1].residual_ace = 1
    }),
    worked((5, 224), "residual ASOE above ASOE", |book| {
        book.energies[0].residual_asoe = 5_001
    }),
    worked((5, 248), "residual ASOE -1", |book| {
        book.energies[1].residual_asoe = -1
    }),
];

/// The ranges of a contract's fields, and benefit factors "together exactly
/// 1,000,000". The contracts of the mixed book stand at 400 and 436.
const CHECK_5_CONTRACTS: &[Case] = &[
    mixed((5, 400), "id 0", |book| book.contracts[0].id = 0),
    mixed((5, 400), "kind 0", |book| book.contracts[0].kind = 0),
    mixed((5, 436), "kind 3", |book| book.contracts[1].kind = 3),
    mixed((5, 400), "first reserved byte", |book| {
        book.contracts[0].reserved[0] = 1
    }),
    mixed((5, 400), "second reserved byte", |book| {
        book.contracts[0].reserved[1] = 1
    }),
    mixed((5, 436), "third reserved byte", |book| {
        book.contracts[1].reserved[2] = 1
    }),
    mixed((5, 436), "payment -1", |book| {
        book.contracts[1].payment = -1
    }),
    mixed(ACCEPTED, "payment 50,000,000,000", |book| {
        book.contracts[1].payment = 50_000_000_000
    }),
    mixed((5, 436), "payment one more", |book| {
        book.contracts[1].payment = 50_000_000_001
    }),
    mixed((5, 400), "factors make 999,999", |book| {
        book.contracts[0].factors[0] = 999_999
    }),
    mixed((5, 400), "factors make 1,000,001", |book| {
        book.contracts[0].factors[4] = 1
    }),
    // 1,000,001 + 4,294,967,295 is 1,000,000 in 32 bits.
    mixed((5, 436), "factors that make a whole in 32 bits", |book| {
        book.contracts[1].factors = [1_000_001, u32::MAX, 0, 0, 0]
    }),
    mixed((5, 400), "no factor", |book| {
        book.contracts[0].factors = [0; 5]
    }),
    // 284 is lower than 400.
    mixed((5, 284), "a contract and a unit row", |book| {
        (book.contracts[0].kind, book.units[2].account) = (0, 0)
    }),
    // The ids at 84 and 124 are the same, which would be 6.
    mixed(
        (5, 436),
        "5 before 6: last contract and first ids",
        |book| (book.contracts[1].kind, book.constraints[1].id) = (0, 10),
    ),
];

/// Keys of the mixed book: constraints 10, 20, 30, 40; unit rows (30, 1), (30, 2),
/// (40, 1); energy rows (7, 0), (7, 2), (9, 0), (9, 4); contracts 1, 2.
const CHECK_6: &[Case] = &[
    mixed((6, 124), "constraints 10, 10", |book| {
        book.constraints[1].id = 10
    }),
    // 20 is not above 25.
    mixed((6, 124), "constraints 25, 20", |book| {
        book.constraints[0].id = 25
    }),
    mixed((6, 204), "constraints 30, 29", |book| {
        book.constraints[3].id = 29
    }),
    mixed((6, 264), "unit rows (30, 1), (30, 1)", |book| {
        book.units[1].unit = 1
    }),
    mixed((6, 264), "unit rows (30, 3), (30, 2)", |book| {
        book.units[0].unit = 3
    }),
    mixed((6, 284), "unit rows (30, 2), (29, 9)", |book| {
        (book.units[2].constraint, book.units[2].unit) = (29, 9)
    }),
    mixed((6, 328), "energy rows (7, 0), (7, 0)", |book| {
        book.energies[1].region = 0
    }),
    mixed((6, 352), "energy rows (7, 2), (7, 0)", |book| {
        book.energies[2].account = 7
    }),
    mixed((6, 376), "energy rows (9, 0), (8, 4)", |book| {
        book.energies[3].account = 8
    }),
    mixed((6, 436), "contracts 1, 1", |book| book.contracts[1].id = 1),
    mixed((6, 436), "contracts 3, 2", |book| book.contracts[0].id = 3),
    mixed(ACCEPTED, "contracts 1, 4,294,967,295", |book| {
        book.contracts[1].id = u32::MAX
    }),
    // 264 is lower than 436.
    mixed((6, 264), "unit rows and contracts", |book| {
        (book.units[1].unit, book.contracts[1].id) = (1, 1)
    }),
    // The first unit row names no constraint, which would be 7 at 244.
    mixed((6, 328), "6 before 7", |book| {
        (book.units[0].constraint, book.energies[1].region) = (1, 0)
    }),
];

/// The changed rows stay in order: 6 finds nothing.
const CHECK_7: &[Case] = &[
    mixed((7, 244), "an id below all", |book| {
        book.units[0].constraint = 1
    }),
    // (30, 1), (31, 2), (40, 1). Constraint 30 lacks a CF of 600,000 then, which
    // would be 8.
    mixed((7, 264), "an id between two", |book| {
        book.units[1].constraint = 31
    }),
    mixed((7, 284), "an id above all", |book| {
        book.units[2].constraint = 41
    }),
    mixed((7, 244), "a contingency", |book| {
        book.units[0].constraint = 10
    }),
    mixed((7, 284), "a default that becomes a contingency", |book| {
        book.constraints[3] = constraint(40, 2, 0, 0b00100, 500)
    }),
    mixed((7, 244), "two rows", |book| {
        (book.units[0].constraint, book.units[2].constraint) = (20, 50)
    }),
    empty((7, 84), "a unit row and no constraint", |book| {
        book.units = vec![unit_row(1, 1, 1, 0, 0)]
    }),
    // The entry would be 9 at 24, which is looked for later.
    mixed((7, 284), "7 before 9", |book| {
        (book.units[2].constraint, book.regions[0].ace) = (41, 0)
    }),
];

/// "Mode 1: CFs + RCF = 0; negative CFs + min(0, RCF) = -1,000,000. Mode 2: every
/// CF is 0. Modes 1 and 2: DCFs + DRCF = -1,000,000."
const CHECK_8: &[Case] = &[
    // 80,000 - 20,000 + 30,000 + 890,000 - 680,000 = 300,000; with RCF, 1.
    worked((8, 84), "factors make 1", |book| {
        book.constraints[0].rcf = -299_999
    }),
    // 79,999 - 19,999 is still 60,000, but the negative ones make
    // -19,999 - 680,000 - 300,000 = -999,999.
    worked((8, 84), "negative factors make -999,999", |book| {
        (book.units[0].cf, book.units[1].cf) = (79_999, -19_999)
    }),
    worked((8, 84), "negative factors make -1,000,001", |book| {
        (book.units[0].cf, book.units[1].cf) = (80_001, -20_001)
    }),
    // -600,000 + 200,000 + 400,000 = 0; RCF is not negative: -600,000.
    mixed((8, 164), "a positive RCF is no negative factor", |book| {
        (book.units[0].cf, book.units[1].cf) = (-600_000, 200_000)
    }),
    // -40,000 - 10,000 - 700,000 - 249,999 = -999,999.
    worked((8, 84), "default factors make -999,999", |book| {
        book.constraints[0].drcf = -249_999
    }),
    worked((8, 84), "default factors make -1,000,001", |book| {
        book.units[4].dcf = -700_001
    }),
    mixed((8, 204), "a default's default factors", |book| {
        book.units[2].dcf = -749_999
    }),
    mixed((8, 204), "a default's unit with CF 1", |book| {
        book.units[2].cf = 1
    }),
    mixed((8, 204), "a default's unit with CF -1", |book| {
        book.units[2].cf = -1
    }),
    // 500,000 - 500,000 = 0, yet not every CF is 0.
    mixed((8, 204), "a default's factors that balance", |book| {
        book.units[2].cf = 500_000;
        book.units.push(unit_row(40, 2, 7, -500_000, 0));
    }),
    // RCF alone makes 0 only as 0, and then no -1,000,000.
    worked((8, 84), "factored, no unit rows", |book| {
        book.units.clear();
        (book.constraints[0].rcf, book.constraints[0].drcf) = (0, -1_000_000);
    }),
    mixed((8, 204), "default, no unit rows, DRCF -250,000", |book| {
        book.units.truncate(2)
    }),
    mixed(ACCEPTED, "default, no unit rows, DRCF -1,000,000", |book| {
        book.units.truncate(2);
        book.constraints[3].drcf = -1_000_000;
    }),
    mixed((8, 164), "two constraints", |book| {
        (book.units[2].cf, book.constraints[2].rcf) = (1, 400_001)
    }),
    // The entry would be 9 at 24: a higher number, though at a lower offset.
    mixed((8, 204), "8 before 9", |book| {
        (book.units[2].cf, book.regions[0].ace) = (1, -999)
    }),
];

/// The entries of the mixed book: NSW1 at 24, QLD1 36, SA1 48, TAS1 60, VIC1 72.
const CHECK_9: &[Case] = &[
    // -600 - 400 = -1,000.
    mixed((9, 24), "NSW1 total ACE -999", |book| {
        book.regions[0].ace = -999
    }),
    // 400 + 100 = 500.
    mixed((9, 24), "NSW1 total ASOE 501", |book| {
        book.regions[0].asoe = 501
    }),
    // 100 + 50 + 0 + 0 = 150.
    mixed((9, 24), "NSW1 residual total 149", |book| {
        book.regions[0].residual = 149
    }),
    // Without rows all three are 0.
    mixed((9, 36), "QLD1 residual total 1", |book| {
        book.regions[1].residual = 1
    }),
    mixed((9, 60), "TAS1 total ACE -1", |book| {
        book.regions[3].ace = -1
    }),
    mixed((9, 72), "VIC1 total ASOE 249", |book| {
        book.regions[4].asoe = 249
    }),
    // 100 + 50 + 0 + 1 = 151, while the entry says 150.
    mixed((9, 24), "a row's residual ASOE", |book| {
        book.energies[2].residual_asoe = 1
    }),
    // Both SA1 and TAS1 differ then.
    mixed((9, 48), "a row in another region", |book| {
        book.energies[1].region = 3
    }),
    worked((9, 24), "energy rows gone", |book| book.energies.clear()),
    // 214 x 20,000,000 + 14,967,296 = 4,294,967,296, which 32 bits cut to 0.
    worked((9, 24), "2^32 kWh of ACE more than the entry", |book| {
        let full = |account| energy_row(account, 0, [-20_000_000, 0, 0, 0]);
        book.energies.extend((11..=224).map(full));
        book.energies
            .push(energy_row(225, 0, [-14_967_296, 0, 0, 0]));
    }),
    // QLD1 has no ACE, which would be 10 at 400.
    mixed((9, 72), "9 before 10", |book| {
        book.contracts[0].factors = [0, 1_000_000, 0, 0, 0];
        book.regions[4].residual = 0;
    }),
];

/// "Raise contingency, total ASOE over its regions; lower, total ACE; regulation,
/// residual total; contract, total ACE or ASOE in a region whose benefit factor
/// isn't 0. It applies though the pool is 0."
const CHECK_10: &[Case] = &[
    // SA1 has ASOE 0.
    mixed((10, 84), "raise in SA1", |book| {
        book.constraints[0].regions = 0b00100
    }),
    mixed(ACCEPTED, "raise in SA1 and VIC1", |book| {
        book.constraints[0].regions = 0b10100
    }),
    // VIC1 has ACE 0. Constraint 20 costs 0.
    mixed((10, 124), "lower in VIC1", |book| {
        book.constraints[1].regions = 0b10000
    }),
    mixed(ACCEPTED, "lower in SA1", |book| {
        book.constraints[1].regions = 0b00100
    }),
    mixed((10, 164), "factored in QLD1", |book| {
        book.constraints[2].regions = 0b00010
    }),
    mixed((10, 204), "default in QLD1 and TAS1", |book| {
        book.constraints[3].regions = 0b01010
    }),
    mixed(ACCEPTED, "default in TAS1 and VIC1", |book| {
        book.constraints[3].regions = 0b11000
    }),
    // SA1 has ACE -300 but ASOE 0; VIC1 has ACE 0 but ASOE 250.
    mixed((10, 400), "contract for SA1", |book| {
        book.contracts[0].factors = [0, 0, 1_000_000, 0, 0]
    }),
    mixed((10, 400), "contract for VIC1", |book| {
        book.contracts[0].factors = [0, 0, 0, 0, 1_000_000]
    }),
    mixed((10, 400), "contract, one millionth for VIC1", |book| {
        book.contracts[0].factors = [999_999, 0, 0, 0, 1]
    }),
    // Contract 2 is a test and pays 0.
    mixed((10, 436), "contract for QLD1", |book| {
        book.contracts[1].factors = [0, 1_000_000, 0, 0, 0]
    }),
    mixed((10, 204), "a constraint and a contract", |book| {
        book.constraints[3].regions = 0b00010;
        book.contracts[0].factors = [0, 1_000_000, 0, 0, 0];
    }),
    empty((10, 84), "a constraint and no energy", |book| {
        book.constraints = vec![constraint(1, 1, 0, 31, 0)]
    }),
    empty((10, 84), "a contract and no energy", |book| {
        book.contracts = vec![contract(1, 1, 0)]
    }),
];
