//! Reconciliation files, worked out by hand from the request for them (02, Req 05), the
//! papers (000, 003) and the scope document (01). Library, fast version and reference all
//! have to give these texts and refusals. `nmas_reading_cases.rs` has texts to be read.

use fervolatro_testing::book::{Book, EnergyRow};
use fervolatro_testing::books::{Books, Pair};
use fervolatro_testing::harness::{Answer, Call, File, Given, Run, Side, Units, FAST, LIBRARY};
use fervolatro_testing::requests::worked::{
    book_of, contract, empty_book, energy_row, paper_book, worked_book, PAPER_NSW1, PAPER_QLD1,
};
use fervolatro_testing::Refusal;

const ASKED: [Side; 2] = [LIBRARY, FAST];

const AVAILABILITY: u64 = 0;
const ENABLEMENT: u64 = 1;
const COMPENSATION: u64 = 2;

const NSW1: [u32; 5] = [1_000_000, 0, 0, 0, 0];

/// What library, fast version and reference answer, who have to agree.
fn asked<'b>(books: impl Into<Books<'b>>, call: Call) -> Given {
    let books = books.into();
    let [given, _] = ASKED.map(|side| Run::new(side, Units::Own).compare(call, books));
    given
}

fn refused<A>(number: u8, place: usize) -> Result<A, Refusal> {
    Err(Refusal { number, place })
}

/// The account's file, into a buffer of that length.
fn file(account: u32, payment_type: u64, room: usize) -> Call {
    let file = File {
        account,
        payment_type,
    };
    Call::Nmas { file, room }
}

/// The account has just this file, also in a longer buffer.
fn assert_file<'b>(books: impl Into<Books<'b>>, account: u32, payment_type: u64, text: &str) {
    let books = books.into();
    for side in ASKED {
        for room in [text.len(), text.len() + 9] {
            let call = file(account, payment_type, room);
            let (given, mut lent) = Run::new(side, Units::Own).compare_into(call, books);
            assert_eq!(given, Ok(Answer::Length(text.len())), "account {account}");
            let written = String::from_utf8_lossy(&lent.buffer()[..text.len()]);
            assert_eq!(written, text, "account {account}");
        }
    }
    let rows = asked(text, Call::NmasRows);
    assert_eq!(rows, Ok(Answer::Rows(text.lines().count())));
}

/// A book of these energy rows and one contract.
fn book_with(energies: &[EnergyRow], payment: i64, factors: [u32; 5]) -> Book {
    let mut book = book_of(&[], &[], energies);
    book.contracts = vec![contract(1, 1, payment, factors)];
    book
}

// Files.

#[test]
fn the_contract_of_the_paper() {
    let text = format!("{PAPER_NSW1}{PAPER_QLD1}");
    assert_file(&paper_book().encode(), 7, AVAILABILITY, &text);
}

/// The rest. NSW1: 15 x 410 / 450 = 13.666667, 15 x 470 / 500 = 14.1; 27.7667. QLD1: 35 x
/// 464 / 470 = 34.553191, 35 x 423 / 440 = 33.647727; 34.5532 + 33.6477 = 68.2009.
#[test]
fn the_other_account_of_the_paper() {
    let text = "20250101,1,100,9,RESTART,1,ENABLEMENT,NSW1,0.300000,100.0000,\
                -27.7667,-410.000,-450.000,470.000,500.000,-13.6667,-14.1000\n\
                20250101,1,100,9,RESTART,1,ENABLEMENT,QLD1,0.700000,100.0000,\
                -68.2009,-464.000,-470.000,423.000,440.000,-34.5532,-33.6477\n";
    assert_file(&paper_book().encode(), 9, ENABLEMENT, text);
}

/// All five regions, in their order, whichever of them the account is in. 10,000 x 0.2 =
/// 2,000, halves of 1,000. Account 7 has all of TAS1, and account 9 all of the others.
#[test]
fn five_regions() {
    let rows = [0, 1, 2, 3, 4].map(|region| {
        let account = if region == 3 { 7 } else { 9 };
        energy_row(account, region, [-1_000, 2_000, 0, 0])
    });
    let mut rows = rows.to_vec();
    rows.sort_by_key(|row| (row.account, row.region));
    let book = book_with(&rows, 10_000, [200_000; 5]).encode();
    let front = "20250608,1,1,7,RESTART,1,COMPENSATION,";
    let other = ",0.200000,1.0000,0.0000,0.000,-1.000,0.000,2.000,0.0000,0.0000\n";
    let own = ",0.200000,1.0000,-0.2000,-1.000,-1.000,2.000,2.000,-0.1000,-0.1000\n";
    let text = format!(
        "{front}NSW1{other}{front}QLD1{other}{front}SA1{other}{front}TAS1{own}{front}VIC1{other}"
    );
    assert_file(&book, 7, COMPENSATION, &text);
}

/// The first account has everything in NSW1, as much as there can be, the second nothing.
fn full_book(payment: i64, factors: [u32; 5]) -> Book {
    let energies = [
        energy_row(7, 0, [-20_000_000, 20_000_000, 0, 0]),
        energy_row(7, 1, [-20_000_000, 20_000_000, 0, 0]),
        energy_row(9, 0, [0, 0, 0, 0]),
    ];
    book_with(&energies, payment, factors)
}

/// The most of everything: 25,000,000,000 units of money in each half. The seventeen fields
/// have 8, 2, 3, 10, 7, 10, 12, 4, 8, 12, 13, 10, 10, 9, 9, 13 and 13 bytes, 153 together, and
/// one behind each.
#[test]
fn the_longest_line() {
    let mut book = full_book(50_000_000_000, NSW1);
    book.header.date = 20_991_231;
    book.header.run = 99;
    book.header.interval = 288;
    book.energies.remove(2);
    for row in &mut book.energies {
        row.account = u32::MAX;
    }
    book.contracts[0].id = u32::MAX;
    let text = "20991231,99,288,4294967295,RESTART,4294967295,COMPENSATION,NSW1,1.000000,\
                5000000.0000,-5000000.0000,-20000.000,-20000.000,20000.000,20000.000,\
                -2500000.0000,-2500000.0000\n";
    assert_eq!(text.len(), 170);
    assert_file(&book.encode(), u32::MAX, COMPENSATION, text);
}

/// 0 has no minus: no energy, and a payment of nothing.
#[test]
fn nothing_to_pay() {
    let book = full_book(50_000_000_000, NSW1).encode();
    let text = "20250608,1,1,9,RESTART,1,AVAILABILITY,NSW1,1.000000,5000000.0000,\
                0.0000,0.000,-20000.000,0.000,20000.000,0.0000,0.0000\n";
    assert_file(&book, 9, AVAILABILITY, text);
    let book = full_book(0, NSW1).encode();
    let text = "20250608,1,1,7,RESTART,1,AVAILABILITY,NSW1,1.000000,0.0000,\
                0.0000,-20000.000,-20000.000,20000.000,20000.000,0.0000,0.0000\n";
    assert_file(&book, 7, AVAILABILITY, text);
}

/// A payment of one unit of money: the consumed half is 1, the sent-out half 0.
#[test]
fn the_smallest_payment() {
    let book = full_book(1, NSW1).encode();
    let text = "20250608,1,1,7,RESTART,1,AVAILABILITY,NSW1,1.000000,0.0001,\
                -0.0001,-20000.000,-20000.000,20000.000,20000.000,-0.0001,0.0000\n";
    assert_file(&book, 7, AVAILABILITY, text);
}

/// 50,000,000,000 x 0.000001 = 50,000, halves of 25,000; the rest is 49,999,950,000, halves
/// of 24,999,975,000.
#[test]
fn the_smallest_factor() {
    let book = full_book(50_000_000_000, [1, 999_999, 0, 0, 0]).encode();
    let text = "20250608,1,1,7,RESTART,1,ENABLEMENT,NSW1,0.000001,5000000.0000,\
                -5.0000,-20000.000,-20000.000,20000.000,20000.000,-2.5000,-2.5000\n\
                20250608,1,1,7,RESTART,1,ENABLEMENT,QLD1,0.999999,5000000.0000,\
                -4999995.0000,-20000.000,-20000.000,20000.000,20000.000,\
                -2499997.5000,-2499997.5000\n";
    assert_file(&book, 7, ENABLEMENT, text);
}

/// Contract 1 of kind 1 and contract 2 of kind 2, of run 3, with a locked book of run 2. In
/// NSW1, in kWh:
///
/// | | current ACE | ASOE | locked ACE | ASOE |
/// |---|---|---|---|---|
/// | account 7 | -30 | 10 | -60 | 5 |
/// | account 8 | | | -20 | 15 |
/// | account 9 | -70 | 40 | | |
/// | total | -100 | 50 | -80 | 20 |
fn pair() -> Pair {
    let current = [
        energy_row(7, 0, [-30, 10, 0, 0]),
        energy_row(9, 0, [-70, 40, 0, 0]),
    ];
    let mut book = book_with(&current, 1_001, NSW1);
    book.contracts.push(contract(2, 2, 2_003, NSW1));
    book.header.run = 3;
    let locked = [
        energy_row(7, 0, [-60, 5, 0, 0]),
        energy_row(8, 0, [-20, 15, 0, 0]),
    ];
    let mut locked = book_of(&[], &[], &locked);
    locked.header.run = 2;
    Pair::of(book, locked)
}

/// Contract 1: r = 1,001, halves 501 and 500; 501 x 30 / 100 = 150.3, 500 x 10 / 50 = 100.
/// Contract 2, by the locked book: r = 2,003, halves 1,002 and 1,001; 1,002 x 60 / 80 =
/// 751.5, away from zero 752; 1,001 x 5 / 20 = 250.25. The run is 3 in both.
#[test]
fn both_kinds() {
    let text = "20250608,3,1,7,RESTART,1,AVAILABILITY,NSW1,1.000000,0.1001,\
                -0.0250,-0.030,-0.100,0.010,0.050,-0.0150,-0.0100\n\
                20250608,3,1,7,RESTART,2,AVAILABILITY,NSW1,1.000000,0.2003,\
                -0.1002,-0.060,-0.080,0.005,0.020,-0.0752,-0.0250\n";
    assert_file(&pair().encode(), 7, AVAILABILITY, text);
}

/// Account 8 stands in the locked book alone: 1,002 x 20 / 80 = 250.5, so 251; 1,001 x 15 /
/// 20 = 750.75. Account 9 in the other: 501 x 70 / 100 = 350.7; 500 x 40 / 50 = 400.
#[test]
fn accounts_of_one_of_two_books() {
    let text = "20250608,3,1,8,RESTART,1,COMPENSATION,NSW1,1.000000,0.1001,\
                0.0000,0.000,-0.100,0.000,0.050,0.0000,0.0000\n\
                20250608,3,1,8,RESTART,2,COMPENSATION,NSW1,1.000000,0.2003,\
                -0.1002,-0.020,-0.080,0.015,0.020,-0.0251,-0.0751\n";
    assert_file(&pair().encode(), 8, COMPENSATION, text);
    let text = "20250608,3,1,9,RESTART,1,COMPENSATION,NSW1,1.000000,0.1001,\
                -0.0751,-0.070,-0.100,0.040,0.050,-0.0351,-0.0400\n\
                20250608,3,1,9,RESTART,2,COMPENSATION,NSW1,1.000000,0.2003,\
                0.0000,0.000,-0.080,0.000,0.020,0.0000,0.0000\n";
    assert_file(&pair().encode(), 9, COMPENSATION, text);
}

/// The worked book has no contract.
#[test]
fn no_contracts() {
    for payment_type in [AVAILABILITY, ENABLEMENT, COMPENSATION] {
        assert_file(&worked_book().encode(), 7, payment_type, "");
    }
}

// Refusals of writing.

/// 11 comes before 13.
#[test]
fn accounts_that_no_book_names() {
    for account in [0, 6, 8, 10, u32::MAX] {
        for room in [0, 1_000] {
            let given = asked(&paper_book().encode(), file(account, AVAILABILITY, room));
            assert_eq!(given, refused(11, 0));
        }
    }
    let given = asked(&empty_book().encode(), file(7, AVAILABILITY, 0));
    assert_eq!(given, refused(11, 0));
}

/// "Else 15 at 0, looked for before all": before the book, the account and the room.
#[test]
fn payment_types_that_there_are_not() {
    let good = paper_book().encode();
    for payment_type in [3, 4, 256, 1 << 32, u64::MAX] {
        for book in [&good[..], &good[..83], b"", b"no book"] {
            for (account, room) in [(7, 1_000), (7, 0), (8, 1_000)] {
                let given = asked(book, file(account, payment_type, room));
                assert_eq!(given, refused(15, 0));
            }
        }
    }
}

/// The refusals of the statement. The book has its contracts at 84 + 2 x 24 = 132 and 168,
/// the second of kind 2.
#[test]
fn books_that_are_refused() {
    let call = file(7, AVAILABILITY, 0);
    assert_eq!(asked(b"RCB", call), refused(1, 0));
    let mut pair = pair();
    assert_eq!(asked(&pair.book.encode(), call), refused(17, 168));
    pair.book.contracts[1].factors = [0, 1_000_000, 0, 0, 0];
    assert_eq!(asked(&pair.encode(), call), refused(10, 168));
    pair.book.contracts[0].payment = -1;
    assert_eq!(asked(&pair.encode(), call), refused(5, 132));
    pair.book.header.version = 2;
    assert_eq!(asked(&pair.encode(), call), refused(2, 0));
}

#[test]
fn locked_books_that_are_refused() {
    let mut pair = pair();
    let call = file(7, AVAILABILITY, 0);
    assert_eq!(asked(&pair.encode(), call), refused(13, 0));
    let locked = pair.locked.as_mut().expect("there is one");
    locked.header.run = 4;
    assert_eq!(asked(&pair.encode(), call), refused(18, 168));
}

/// 13 at every length below the text's, with not one byte changed; behind the text the
/// bytes are what they were.
#[test]
fn every_room() {
    let text = format!("{PAPER_NSW1}{PAPER_QLD1}");
    for side in ASKED {
        for room in 0..text.len() + 20 {
            assert_room(side, &text, room);
        }
    }
}

/// The paper's file into a buffer of that length.
fn assert_room(side: Side, text: &str, room: usize) {
    let book = paper_book().encode();
    let mut buffer: Vec<u8> = (0..room).map(|at| at as u8 | 0x80).collect();
    let before = buffer.clone();
    let call = file(7, AVAILABILITY, room);
    let given = (side.ask)(call, Books::from(&book), &mut buffer);
    if room < text.len() {
        assert_eq!((given, buffer), (refused(13, 0), before));
    } else {
        assert_eq!(given, Ok(Answer::Length(text.len())));
        assert_eq!(buffer, [text.as_bytes(), &before[text.len()..]].concat());
    }
}
