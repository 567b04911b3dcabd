//! What the package for users adds to the library's calls: lists of accounts, of pools and
//! of what their stages cut off, statements of just the length asked for, lines one by one,
//! services by their names, reconciliation files without a buffer and their rows by names.
//! The expected values are worked out by hand; `by_hand.rs` has those of the other book.

use fervolatro::{
    Cutoff, Mode, NmasRow, Part, PaymentType, Pool, PoolKind, Reason, Refusal, Region, Regions,
    Service, Source, Stage, Statement,
};
use fervolatro_testing::book::Book;
use fervolatro_testing::dispatch::{encode, Row};
use fervolatro_testing::requests::generate::book_of_longest_statement;
use fervolatro_testing::requests::random::Random;
use fervolatro_testing::requests::worked::{
    contract, empty_book, energy_row, small_halves_book, unit_row, worked_book, worked_statement,
};

fn refused<A>(reason: Reason, place: usize) -> Result<A, Refusal> {
    Err(Refusal { reason, place })
}

/// The kinds of a book's pools, each with the id that it is of.
fn kinds(pools: &[Pool]) -> Vec<(u32, PoolKind)> {
    let pools = pools.iter();
    pools.map(|pool| (pool.source.id(), pool.kind)).collect()
}

/// Accounts 7 and 9 have units and energy.
#[test]
fn accounts_of_the_worked_book() {
    let accounts = fervolatro::accounts(&worked_book().encode(), None);
    assert_eq!(accounts, Ok(vec![7, 9]));
}

/// Units first, energy first, either alone and both; each once, and rising.
#[test]
fn accounts_rise_and_stand_once() {
    let mut book = worked_book();
    // Constraint 500's factors stay; only the accounts of its five units change.
    let named = [u32::MAX, 7, 3, u32::MAX, 8];
    for (row, account) in book.units.iter_mut().zip(named) {
        row.account = account;
    }
    book.energies.push(energy_row(1 << 24, 0, [0; 4]));
    let accounts = fervolatro::accounts(&book.encode(), None);
    assert_eq!(accounts, Ok(vec![3, 7, 8, 9, 1 << 24, u32::MAX]));
    assert_eq!(
        fervolatro::accounts(&empty_book().encode(), None),
        Ok(vec![])
    );
}

/// Constraint 500, service 9, mask 1, mode 1: FPP, used, unused.
#[test]
fn pools_of_the_worked_book() {
    let source = Source::Constraint {
        id: 500,
        service: Service::RegulationRaise,
        regions: Regions::from_iter([Region::Nsw1]),
        mode: Mode::Factored,
    };
    let kinds = [PoolKind::Fpp, PoolKind::Used, PoolKind::Unused];
    let pools = (0..).zip(kinds).map(|(number, kind)| Pool {
        number,
        source,
        kind,
    });
    let listed = fervolatro::pools(&worked_book().encode(), None);
    assert_eq!(listed, Ok(pools.collect()));
    assert_eq!(fervolatro::pools(&empty_book().encode(), None), Ok(vec![]));
}

/// Constraints 1 and 2 of mode 0, 3 of mode 2, 4 of mode 1; contracts 1 and 2.
#[test]
fn pools_of_every_kind() {
    let book = small_halves_book().encode();
    let pools = fervolatro::pools(&book, None).expect("it is accepted");
    let by_hand = [
        (1, PoolKind::Contingency),
        (2, PoolKind::Contingency),
        (3, PoolKind::Unused),
        (4, PoolKind::Fpp),
        (4, PoolKind::Used),
        (4, PoolKind::Unused),
        (1, PoolKind::Contract),
        (2, PoolKind::Contract),
    ];
    assert_eq!(kinds(&pools), by_hand);
    for (number, pool) in (0..).zip(&pools) {
        assert_eq!(pool.number, number);
        assert!(fervolatro::balance(&book, None, number).is_ok(), "{pool:?}");
    }
    let past = fervolatro::balance(&book, None, pools.len() as u64);
    assert_eq!(past, refused(Reason::PastEnd, 0));
}

/// A stage of a contract in a region.
fn in_region(stage: Stage, region: Region, divisor: u64, cut: i64) -> Cutoff {
    Cutoff {
        stage,
        region: Some(region),
        divisor,
        cut,
    }
}

/// Contract 2's payment of 3 is half NSW1's and half QLD1's, 1.5, so 2 each: half a unit of
/// money is missing. 1 is consumed and 1 sent out, and of each accounts 7 and 9 have one
/// half, so 1: -1 of 2 twice.
#[test]
fn stages_of_a_contract_have_their_region() {
    let book = small_halves_book().encode();
    let of_region = |region| {
        [
            in_region(Stage::Whole, region, 1_000_000, -500_000),
            in_region(Stage::Half, region, 2, 0),
            in_region(Stage::Ace, region, 2, -2),
            in_region(Stage::Asoe, region, 2, -2),
        ]
    };
    let by_hand = [Region::Nsw1, Region::Qld1].map(of_region).concat();
    assert_eq!(fervolatro::cutoffs(&book, None, 7), Ok(by_hand.clone()));
    for (index, of) in (0..).zip(by_hand) {
        assert_eq!(fervolatro::cutoff(&book, None, 7, index), Ok(of));
    }
    let past = fervolatro::cutoff(&book, None, 7, 8);
    assert_eq!(past, refused(Reason::PastEnd, 0));
}

/// Constraint 1 has its lines alone. The pool of constraint 3 is its cost; those of
/// constraint 4 are made. No stage of a constraint has a region.
#[test]
fn stages_of_constraints() {
    use Stage::{Line, Pool, Residual, Share, Unit};

    let book = small_halves_book().encode();
    for (pool, by_hand) in [
        (0, &[Line][..]),
        (2, &[Unit, Residual, Share]),
        (3, &[Pool, Unit, Residual, Share]),
        (5, &[Pool, Unit, Residual, Share]),
    ] {
        let cutoffs = fervolatro::cutoffs(&book, None, pool).expect("it is a pool");
        assert!(cutoffs.iter().all(|of| of.region.is_none()), "{cutoffs:?}");
        let stages: Vec<Stage> = cutoffs.iter().map(|of| of.stage).collect();
        assert_eq!(stages, by_hand, "pool {pool}");
    }
    let past = fervolatro::cutoffs(&book, None, 8);
    assert_eq!(past, refused(Reason::PastEnd, 0));
}

/// The book is checked before anything is listed: a unit row of no constraint is 7, at
/// 84 + 40 + 5 x 20 = 224.
#[test]
fn refused_books_have_no_lists() {
    let mut book = worked_book();
    book.units.push(unit_row(501, 1, 7, 0, 0));
    let book = book.encode();
    assert_eq!(
        fervolatro::accounts(&book, None),
        refused(Reason::NoConstraint, 224)
    );
    assert_eq!(
        fervolatro::pools(&book, None),
        refused(Reason::NoConstraint, 224)
    );
    assert_eq!(
        fervolatro::cutoffs(&book, None, 0),
        refused(Reason::NoConstraint, 224)
    );
    let statement = fervolatro::statement(&book, None, 7);
    assert_eq!(statement, refused(Reason::NoConstraint, 224));
    assert_eq!(
        fervolatro::length(&book, None, 7),
        refused(Reason::NoConstraint, 224)
    );
    assert_eq!(
        fervolatro::accounts(b"RCB", None),
        refused(Reason::Short, 0)
    );
}

/// The worked book with a test payment of 0 for NSW1, at 272 behind its records; and the
/// worked book with account 11 in the place of 9, in unit rows and energy rows.
fn test_payment() -> (Vec<u8>, Vec<u8>) {
    let (mut book, mut locked) = (worked_book(), worked_book());
    book.contracts = vec![contract(1, 2, 0, [1_000_000, 0, 0, 0, 0])];
    locked.units[3].account = 11;
    locked.units[4].account = 11;
    locked.energies[1].account = 11;
    (book.encode(), locked.encode())
}

/// Accounts 7 and 9 of the one book, 7 and 11 of the other. Account 11 has the residual
/// lines of constraint 500 and two of the contract: 24 + 5 x 24 = 144 bytes.
#[test]
fn lists_of_two_books() {
    let (book, locked) = test_payment();
    let accounts = fervolatro::accounts(&book, Some(&locked));
    assert_eq!(accounts, Ok(vec![7, 9, 11]));
    let pools = fervolatro::pools(&book, Some(&locked)).expect("it is accepted");
    assert_eq!(kinds(&pools)[3..], [(1, PoolKind::Contract)]);
    let statement = fervolatro::statement(&book, Some(&locked), 11);
    assert_eq!(statement.map(|bytes| bytes.len()), Ok(144));
    let balance = fervolatro::balance(&book, Some(&locked), 3);
    assert_eq!(balance.map(|balance| balance.lines), Ok(6));
}

/// No bytes are no locked book, as none are.
#[test]
fn an_empty_locked_book_is_none() {
    let (book, _) = test_payment();
    for locked in [None, Some(&[][..])] {
        let mut buffer = [7; 312];
        let written = fervolatro::statement_into(&book, locked, 7, &mut buffer);
        assert_eq!(written, refused(Reason::NoLocked, 272));
        assert_eq!(buffer, [7; 312]);
        let refusal = fervolatro::check(&book, locked);
        assert_eq!(refusal, refused(Reason::NoLocked, 272));
        let length = fervolatro::length(&book, locked, 7);
        assert_eq!(length, refused(Reason::NoLocked, 272));
        let balance = fervolatro::balance(&book, locked, 0);
        assert_eq!(balance, refused(Reason::NoLocked, 272));
        let cutoffs = fervolatro::cutoffs(&book, locked, 0);
        assert_eq!(cutoffs, refused(Reason::NoLocked, 272));
        let accounts = fervolatro::accounts(&book, locked);
        assert_eq!(accounts, refused(Reason::NoLocked, 272));
        let pools = fervolatro::pools(&book, locked);
        assert_eq!(pools, refused(Reason::NoLocked, 272));
        let file = fervolatro::nmas(&book, locked, 7, PaymentType::Availability);
        assert_eq!(file, refused(Reason::NoLocked, 272));
    }
}

/// One that is read is checked; one that is not may be anything, and names nobody.
#[test]
fn locked_books_that_are_read_and_not() {
    let (book, locked) = test_payment();
    let refusal = fervolatro::check(&book, Some(b"RCB"));
    assert_eq!(refusal, refused(Reason::Locked, 272));
    let worked = worked_book().encode();
    assert_eq!(fervolatro::check(&worked, Some(b"RCB")), Ok(()));
    let accounts = fervolatro::accounts(&worked, Some(&locked));
    assert_eq!(accounts, Ok(vec![7, 9]));
    let length = fervolatro::length(&worked, Some(&locked), 11);
    assert_eq!(length, refused(Reason::NoAccount, 0));
}

/// A header and twelve lines are 24 + 12 x 24 = 312 bytes.
#[test]
fn statements_have_just_their_length() {
    let book = worked_book().encode();
    let length = fervolatro::length(&book, None, 7);
    assert_eq!(length, Ok(312));
    let statement = fervolatro::statement(&book, None, 7).expect("it is settled");
    assert_eq!(Ok(statement.len()), length);
    assert_eq!(statement, worked_statement().encode());
    for account in [0, 8] {
        let length = fervolatro::length(&book, None, account);
        assert_eq!(length, refused(Reason::NoAccount, 0));
        let statement = fervolatro::statement(&book, None, account);
        assert_eq!(statement, refused(Reason::NoAccount, 0));
    }
}

/// Two lines of constraints 1 and 2, one unit's and the residual's of 3, three and three
/// of 4, two and four of the contracts: 16, and 24 + 16 x 24 = 408.
#[test]
fn the_length_is_the_room_that_a_statement_takes() {
    let book = small_halves_book().encode();
    let length = fervolatro::length(&book, None, 7).expect("it is settled");
    assert_eq!(length, 408);
    let mut buffer = vec![7; length];
    let written = fervolatro::statement_into(&book, None, 7, &mut buffer[..length - 1]);
    assert_eq!(written, refused(Reason::Buffer, 0));
    assert_eq!(buffer, vec![7; length]);
    let written = fervolatro::statement_into(&book, None, 7, &mut buffer);
    assert_eq!(written, Ok(length));
    assert_eq!(fervolatro::statement(&book, None, 7), Ok(buffer));
}

/// The longest statement has 3 x 600 + 3 x 64 + 10 x 16 = 2,152 lines.
#[test]
fn the_longest_statement_is_written_and_read() {
    let (book, account) = book_of_longest_statement(&mut Random::new(1));
    let book = book.encode();
    let length = fervolatro::length(&book, None, account);
    assert_eq!(length, Ok(fervolatro::LARGEST_STATEMENT));
    let statement = fervolatro::statement(&book, None, account).expect("it is settled");
    assert_eq!(Ok(statement.len()), length);
    let read = Statement::read(&statement).expect("it is a statement");
    assert_eq!(read.lines().len(), fervolatro::MOST_LINES);
    assert_eq!(fervolatro::rewrite(&statement), Ok(statement));
}

/// Three units with three lines each, then the residuals: by their parts, from both ends.
#[test]
fn lines_are_an_iterator() {
    let read = Statement::read(&worked_statement().encode()).expect("it is a statement");
    let units: Vec<Option<u32>> = read.lines().map(|line| line.unit).step_by(3).collect();
    assert_eq!(units, [Some(1), Some(2), Some(3), None]);
    let from_the_end: Vec<Part> = read.lines().rev().take(4).map(|line| line.part).collect();
    let residuals = [Part::ResidualUnused, Part::ResidualUsed, Part::ResidualFpp];
    assert_eq!(from_the_end[..3], residuals);
    assert_eq!(from_the_end[3], Part::UnitUnused);
    let mut taken = 0;
    for line in &read {
        assert_eq!((line.id, line.regions.mask()), (500, 1));
        taken += 1;
    }
    assert_eq!(taken, 12);
    assert_eq!(read.lines().nth(12), None);
}

#[test]
fn no_statement_is_refused_with_14() {
    let mut bytes = worked_statement().encode();
    bytes[28] = 11; // the first line's part
    assert_eq!(Statement::read(&bytes), refused(Reason::NoStatement, 0));
    assert_eq!(fervolatro::rewrite(&bytes), refused(Reason::NoStatement, 0));
    assert_eq!(
        fervolatro::rewrite(&vec![0; 60_000]),
        refused(Reason::NoStatement, 0)
    );
}

/// A payment row of $98.81 and 50 MW in NSW1, and constraint 500's of $83.17 and 50 MW in
/// TAS1, both of raise regulation: 9,881 x 5,000 / 12 = 4,117,083.33 and 8,317 x 5,000 / 12
/// = 3,465,416.67.
fn dispatch_rows() -> Vec<u8> {
    encode(&[
        Row::of(0, 9, 0, (9_881, 5_000)),
        Row::of(500, 9, 3, (8_317, 5_000)),
    ])
}

/// A service is asked for by its name, or by any number.
#[test]
fn costs_of_a_service() {
    let rows = dispatch_rows();
    let paid = fervolatro::payment(&rows, Service::RegulationRaise);
    assert_eq!(paid, Ok(4_117_083));
    let cost = fervolatro::base_cost(&rows, 500, Service::RegulationRaise);
    assert_eq!(cost, Ok(3_465_417));
    assert_eq!(fervolatro::payment(&rows, 9_u8), paid);
    assert_eq!(fervolatro::payment(&rows, 9_u64), paid);
    assert_eq!(fervolatro::base_cost(&rows, 500, 9_u32), cost);
    for &service in &Service::ALL[..8] {
        assert_eq!(fervolatro::payment(&rows, service), Ok(0), "{service}");
        let cost = fervolatro::base_cost(&rows, 500, service);
        assert_eq!(cost, Ok(0), "{service}");
    }
    assert_eq!(fervolatro::payment(&rows, u64::MAX), Ok(0));
    assert_eq!(fervolatro::base_cost(&rows, 0, 9_u8), Ok(0));
    assert_eq!(fervolatro::payment(&[], Service::RegulationRaise), Ok(0));
}

/// The place is the row's, in bytes from the start of the rows; 0 is the first row's.
#[test]
fn bad_dispatch_rows_are_refused_with_16() {
    let mut rows = dispatch_rows();
    rows[16 + 4] = 11; // the second row's service
    let paid = fervolatro::payment(&rows, Service::RegulationRaise);
    assert_eq!(paid, refused(Reason::DispatchRow, 16));
    let cost = fervolatro::base_cost(&rows, 7, 0_u64);
    assert_eq!(cost, refused(Reason::DispatchRow, 16));
    let cut_short = fervolatro::payment(&rows[..15], Service::RegulationRaise);
    assert_eq!(cut_short, refused(Reason::DispatchRow, 0));
    let said = cut_short.map_err(|refusal| refusal.to_string());
    let words = "a dispatch row that is cut short, out of range, not rising, has a product above \
                 600,000,000,000 or takes a sum past 50,000,000,000";
    assert_eq!(said, Err(format!("refusal 16 at 0: {words}")));
}

/// A base cost is a constraint's cost in a book, up to the highest: 600,000 x 1,000,000 /
/// 12 = 50,000,000,000.
#[test]
fn base_costs_are_costs_of_a_book() {
    for (pair, made) in [
        ((8_317, 5_000), 3_465_417),
        ((600_000, 1_000_000), 50_000_000_000),
    ] {
        let rows = encode(&[Row::of(500, 9, 0, pair)]);
        let cost = fervolatro::base_cost(&rows, 500, Service::RegulationRaise);
        assert_eq!(cost, Ok(made));
        let mut book = worked_book();
        book.constraints[0].cost = made.cast_signed();
        assert_eq!(fervolatro::check(&book.encode(), None), Ok(()));
    }
}

/// Account 7's file of the small halves. Contract 1, payment 5 in NSW1: halves of 3 and 2,
/// of which 1.5 and 1 are its own. Contract 2, payment 3: 1.5 in each region, so 2, halves
/// of 1, of which it has one half each, so 1.
const FILE: &str = "\
    20250608,1,1,7,RESTART,1,ENABLEMENT,NSW1,1.000000,0.0005,\
    -0.0003,-0.001,-0.002,0.001,0.002,-0.0002,-0.0001\n\
    20250608,1,1,7,RESTART,2,ENABLEMENT,NSW1,0.500000,0.0003,\
    -0.0002,-0.001,-0.002,0.001,0.002,-0.0001,-0.0001\n\
    20250608,1,1,7,RESTART,2,ENABLEMENT,QLD1,0.500000,0.0003,\
    -0.0002,-0.001,-0.002,0.001,0.002,-0.0001,-0.0001\n";

#[test]
fn files_have_just_their_length() {
    let book = small_halves_book().encode();
    let file = fervolatro::nmas(&book, None, 7, PaymentType::Enablement);
    assert_eq!(file, Ok(FILE.as_bytes().to_vec()));
    assert_eq!(fervolatro::nmas(&book, None, 7, 1_u64), file);
    let empty = fervolatro::nmas(&worked_book().encode(), None, 7, PaymentType::Enablement);
    assert_eq!(empty, Ok(Vec::new()));
}

/// The three types differ in their word, and in nothing else.
#[test]
fn payment_types_by_their_names() {
    let book = small_halves_book().encode();
    for &payment_type in PaymentType::ALL {
        let file = fervolatro::nmas(&book, None, 7, payment_type);
        let expected = FILE.replace("ENABLEMENT", payment_type.words());
        assert_eq!(file, Ok(expected.clone().into_bytes()));
        let row = fervolatro::nmas_row(expected.as_bytes(), 0);
        assert_eq!(row.map(|row| row.payment_type), Ok(payment_type));
    }
    // Another number is refused, whatever the book is.
    for number in [3, 256, 1 << 32, u64::MAX] {
        for book in [&book[..], b"RCB"] {
            let past = fervolatro::nmas(book, None, 7, number);
            assert_eq!(past, refused(Reason::PastEnd, 0), "{number}");
        }
    }
}

#[test]
fn rows_of_a_file() {
    assert_eq!(fervolatro::nmas_rows(FILE.as_bytes()), Ok(3));
    let row = NmasRow {
        date: 20_250_608,
        run: 1,
        interval: 1,
        account: 7,
        contract: 2,
        payment_type: PaymentType::Enablement,
        region: Region::Qld1,
        factor: 500_000,
        payment: 3,
        recovery: -2,
        own_ace: -1,
        region_ace: -2,
        own_asoe: 1,
        region_asoe: 2,
        by_ace: -1,
        by_asoe: -1,
    };
    assert_eq!(fervolatro::nmas_row(FILE.as_bytes(), 2), Ok(row));
    let past = fervolatro::nmas_row(FILE.as_bytes(), 3);
    assert_eq!(past, refused(Reason::PastEnd, 0));
    let wrong = FILE.replace("QLD1", "QLD");
    assert_eq!(
        fervolatro::nmas_row(wrong.as_bytes(), 0),
        refused(Reason::NmasLine, 2)
    );
}

/// A lent buffer that is too short is left as it was.
#[test]
fn files_into_a_buffer() {
    let book = small_halves_book().encode();
    let mut buffer = vec![0xa5; FILE.len() + 1];
    let short = &mut buffer[..FILE.len() - 1];
    let given = fervolatro::nmas_into(&book, None, 7, PaymentType::Enablement, short);
    assert_eq!(given, refused(Reason::Buffer, 0));
    assert!(buffer.iter().all(|&byte| byte == 0xa5));
    let given = fervolatro::nmas_into(&book, None, 7, PaymentType::Enablement, &mut buffer);
    assert_eq!(given, Ok(FILE.len()));
    assert_eq!(buffer, [FILE.as_bytes(), &[0xa5]].concat());
}

/// The energies are the locked book's, in which account 9 has none and account 11 what 9
/// has in the other; the run is the book's, 2. The payment is 0.
#[test]
fn files_of_a_test_payment() {
    let (mut book, locked) = test_payment();
    book[12] = 2;
    for (account, [ace, asoe]) in [(9, ["0.000", "0.000"]), (11, ["-1000.000", "580.000"])] {
        let file = fervolatro::nmas(&book, Some(&locked), account, PaymentType::Compensation);
        let by_hand = format!(
            "20250608,2,1,{account},RESTART,1,COMPENSATION,NSW1,1.000000,0.0000,0.0000,{ace},\
             -1015.000,{asoe},585.000,0.0000,0.0000\n"
        );
        assert_eq!(file, Ok(by_hand.into_bytes()));
    }
}

/// Without contracts there is nothing to lend room for. Account 8 is not there.
#[test]
fn files_without_rows() {
    let book = worked_book().encode();
    let write =
        |account| fervolatro::nmas_into(&book, None, account, PaymentType::Availability, &mut []);
    assert_eq!(write(7), Ok(0));
    assert_eq!(write(8), refused(Reason::NoAccount, 0));
    assert_eq!(fervolatro::nmas_rows(&[]), Ok(0));
    assert_eq!(fervolatro::nmas_row(&[], 0), refused(Reason::PastEnd, 0));
}

/// A book of 16 contracts of the highest payment, of whose energy one account has all, as
/// much as there can be. `tests/c/books.h` says why no file is longer.
fn book_of_longest_file() -> Book {
    let mut book = empty_book();
    (book.header.run, book.header.interval) = (99, 288);
    let energies = [-20_000_000, 20_000_000, 0, 0];
    book.energies = (0..5)
        .map(|region| energy_row(u32::MAX, region, energies))
        .collect();
    let factors = [400_000, 400_000, 100_000, 50_000, 50_000];
    book.contracts = (u32::MAX - 15..=u32::MAX)
        .map(|id| contract(id, 1, 50_000_000_000, factors))
        .collect();
    book.total_regions();
    book
}

/// 16 x 840 bytes, and a row for each contract and region.
#[test]
fn the_longest_file_is_written_and_read() {
    let book = book_of_longest_file().encode();
    let file = fervolatro::nmas(&book, None, u32::MAX, PaymentType::Compensation);
    let file = file.expect("there is always room");
    assert_eq!(file.len(), 13_440);
    assert!(file.len() <= fervolatro::LARGEST_NMAS);
    let rows = fervolatro::nmas_rows(&file);
    assert_eq!(rows, Ok(fervolatro::MOST_NMAS_ROWS));
    let last = fervolatro::nmas_row(&file, 79).expect("it is there");
    assert_eq!((last.contract, last.region), (u32::MAX, Region::Vic1));
}

/// Every number differs from every other, so that none stands for another.
#[test]
fn rows_by_their_names() {
    let line = "20960229,98,287,4275878552,RESTART,3405697037,ENABLEMENT,SA1,0.654321,\
                4000000.0003,-5000000.0005,-19999.998,-19999.999,19999.996,19999.997,\
                -3000000.0001,-2000000.0004\n";
    let by_hand = NmasRow {
        date: 20_960_229,
        run: 98,
        interval: 287,
        account: 4_275_878_552,
        contract: 3_405_697_037,
        payment_type: PaymentType::Enablement,
        region: Region::Sa1,
        factor: 654_321,
        payment: 40_000_000_003,
        recovery: -50_000_000_005,
        own_ace: -19_999_998,
        region_ace: -19_999_999,
        own_asoe: 19_999_996,
        region_asoe: 19_999_997,
        by_ace: -30_000_000_001,
        by_asoe: -20_000_000_004,
    };
    assert_eq!(fervolatro::nmas_row(line.as_bytes(), 0), Ok(by_hand));
    let past = fervolatro::nmas_row(line.as_bytes(), 1 << 32);
    assert_eq!(past, refused(Reason::PastEnd, 0));
}

/// The place is the number of the first line at fault; 0 is the first line's.
#[test]
fn bad_lines_are_refused_with_19() {
    let cut_short = fervolatro::nmas_rows(&FILE.as_bytes()[..FILE.len() - 1]);
    assert_eq!(cut_short, refused(Reason::NmasLine, 2));
    let said = fervolatro::nmas_rows(b"\n").map_err(|refusal| refusal.to_string());
    let words = "text not of the file's form, out of the book's or statement's ranges, a benefit \
                 factor of 0, or RECOVERY_AMOUNT not the sum of the last two";
    assert_eq!(said, Err(format!("refusal 19 at 0: {words}")));
}
