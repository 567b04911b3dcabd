//! Statements worked out by hand: the worked interval of the scope document (01),
//! amounts that end in a half, and the examples that the Settlements guide (000,
//! appendix A) and the change summary (002) print. Library and reference both have
//! to give them.
//!
//! Amounts are written as the listing has them, "id part regions unit dollars".
//! The papers round only what they print and add up exact numbers; 01 rounds each
//! pool and each line to a ten-thousandth of a dollar. Where that shows in the
//! last place, it is said.
//!
//! Each book is lent as its own locked book, so that test payments are shared by the
//! energies that stand there; `locked_cases.rs` has those of two books.

use fervolatro_testing::book::{Book, Constraint, EnergyRow};
use fervolatro_testing::requests::worked::{
    book_of, constraint, contract, energy_row, small_halves_book, unit_row, worked_book,
};
use fervolatro_testing::statement::Statement;
use fervolatro_testing::{library, reference, Books, Refusal};

/// The bits of TAS1, and of NSW1, QLD1, SA1 and VIC1 together.
const TASMANIA: u8 = 0b01000;
const MAINLAND: u8 = 0b10111;

/// The statement, which both have to write, in a buffer of just the length asked for.
fn statement(book: &Book, account: u32) -> Statement {
    let bytes = book.encode();
    let books = Books::of(&bytes, &bytes);
    let length = library::length(books, account).expect("it is settled");
    let mut buffer = vec![0; length];
    let written = library::statement(books, account, &mut buffer);
    assert_eq!(written, Ok(length));
    let library = Statement::decode(&buffer);
    let reference = reference::settle(books, account).expect("it is settled");
    assert_eq!(library, reference);
    library
}

/// Compares the statement's lines, without the header, with those given.
fn assert_lines(book: &Book, account: u32, lines: &[&str]) {
    let listed = reference::listed(&statement(book, account));
    let listed: Vec<&str> = listed.lines().skip(1).collect();
    assert_eq!(listed, lines, "account {account}");
}

/// What a statement's lines of some parts of a record add up to.
fn total(book: &Book, account: u32, id: u32, parts: &[u8]) -> i64 {
    let lines = statement(book, account).lines.into_iter();
    lines
        .filter(|line| line.id == id && parts.contains(&line.part))
        .map(|line| line.amount)
        .sum()
}

// 01's worked interval.

const WORKED_LISTING: &str = "\
account 7 date 20250608 interval 1 run 1 lines 12
500 3 1 1 59.1300
500 4 1 1 0.0000
500 5 1 1 -33.5071
500 3 1 2 -14.7825
500 4 1 2 -11.1690
500 5 1 2 -8.3768
500 3 1 3 22.1738
500 4 1 3 0.0000
500 5 1 3 0.0000
500 6 1 0 -2.7717
500 7 1 0 -2.0942
500 8 1 0 -2.6177
";

#[test]
fn worked_interval() {
    let listed = reference::listed(&statement(&worked_book(), 7));
    assert_eq!(listed, WORKED_LISTING);
    let input = [&[7, 0, 0, 0], &worked_book().encode()[..]].concat();
    assert_eq!(reference::listing(&input), WORKED_LISTING);
}

/// "Account 8 is refused 11; 311 bytes refuse 13, 312 don't." 24 + 12 x 24 = 312.
#[test]
fn worked_interval_refusals() {
    let book = worked_book().encode();
    let refused = |number| Err(Refusal { number, place: 0 });
    for (account, room, answer) in [
        (8, 312, refused(11)),
        (0, 312, refused(11)),
        // 11 is looked for before 13.
        (8, 0, refused(11)),
        (7, 0, refused(13)),
        (7, 311, refused(13)),
        (7, 312, Ok(312)),
        (7, 400, Ok(312)),
    ] {
        let mut buffer = vec![0xa5; room];
        let given = library::statement(&book, account, &mut buffer);
        assert_eq!(given, answer, "account {account}, room {room}");
        let written = answer.unwrap_or(0);
        let later = &buffer[written..];
        assert!(later.iter().all(|&byte| byte == 0xa5), "room {room}");
        let mut buffer = vec![0xa5; room];
        let given = reference::statement(&book, account, &mut buffer);
        assert_eq!(given, answer, "reference, account {account}, room {room}");
    }
    let input = [&[8, 0, 0, 0], &book[..]].concat();
    assert_eq!(reference::listing(&input), "refused 11 at 0\n");
}

/// "Interval, date and run as in the book", each unlike the others.
#[test]
fn header_as_in_the_book() {
    let mut book = worked_book();
    book.header.interval = 288;
    book.header.date = 20_280_229;
    book.header.run = 99;
    let listed = reference::listed(&statement(&book, 9));
    let header = "account 9 date 20280229 interval 288 run 99 lines 9";
    assert_eq!(listed.lines().next(), Some(header));
}

/// Usage 1,000,001 is refused 5 at 84.
#[test]
fn a_refused_book_leaves_the_buffer() {
    let mut book = worked_book();
    book.constraints[0].usage = 1_000_001;
    let mut buffer = [0xa5; 312];
    let given = library::statement(&book.encode(), 7, &mut buffer);
    let refusal = Refusal {
        number: 5,
        place: 84,
    };
    assert_eq!(given, Err(refusal));
    assert_eq!(buffer, [0xa5; 312]);
}

/// Account 9's units are account 8's here. Pools as in the worked interval: FPP
/// 7,391,250, used 5,584,520, unused 8,376,780.
#[test]
fn units_alone_and_energy_alone() {
    let mut book = worked_book();
    book.units[3].account = 8;
    book.units[4].account = 8;
    let of_units = [
        // 0.89 of the FPP pool is 6,578,212.5.
        "500 3 1 4 657.8213",
        "500 4 1 4 0.0000",
        "500 5 1 4 0.0000",
        // -0.68 of the FPP pool and of used are -5,026,050 and -3,797,473.6; -0.7 of
        // unused is -5,863,746.
        "500 3 1 5 -502.6050",
        "500 4 1 5 -379.7474",
        "500 5 1 5 -586.3746",
        "500 6 1 0 0.0000",
        "500 7 1 0 0.0000",
        "500 8 1 0 0.0000",
    ];
    assert_lines(&book, 8, &of_units);
    let of_energy = [
        // Residual pools -2,217,375, -1,675,356 and -2,094,195; 1,580 of 1,600 MWh are
        // 0.9875 of them: -2,189,657.8, -1,654,414.05 and -2,068,017.6.
        "500 6 1 0 -218.9658",
        "500 7 1 0 -165.4414",
        "500 8 1 0 -206.8018",
    ];
    assert_lines(&book, 9, &of_energy);
}

// Amounts that end in a half.

#[test]
fn halves_by_hand() {
    let lines = [
        // 1 x 1/2 is one half: 1. Account 9 pays 1 too, and one is left over.
        "1 1 1 0 -0.0001",
        // 3 x 1/2 is 1 and a half: 2.
        "2 2 1 0 -0.0002",
        // 5 x -0.5 is -2 and a half: -3.
        "3 5 1 1 -0.0003",
        // The residual pool is -3 as well, and half of it -1 and a half: -2. One
        // rounding of 5 x -0.5 x 1/2 would give -1.
        "3 8 1 0 -0.0002",
        // Pools: FPP 60 / 120 is one half: 1; used 5 x 0.5 is 2 and a half: 3; the
        // rest, 2, is unused. FPP 1 x 0.5: 1. CF is not negative: 0. 2 x -0.5 = -1.
        "4 3 1 1 0.0001",
        "4 4 1 1 0.0000",
        "4 5 1 1 -0.0001",
        // Residual pools 1 x 0.5: 1; 0; 2 x -0.5 = -1. Half of each: 1, 0, -1.
        "4 6 1 0 0.0001",
        "4 7 1 0 0.0000",
        "4 8 1 0 -0.0001",
        // r = 5: consumed half 3, sent-out half 2. 3 x 1/2: 2; 2 x 1/2 = 1.
        "1 9 1 0 -0.0002",
        "1 10 1 0 -0.0001",
        // r = 3 x 0.5: 2 in each region, both halves 1. 1 x 1/2: 1. One rounding of
        // 3 x 0.5 x 1/2 x 1/2 would give 0.
        "2 9 1 0 -0.0001",
        "2 10 1 0 -0.0001",
        "2 9 2 0 -0.0001",
        "2 10 2 0 -0.0001",
    ];
    assert_lines(&small_halves_book(), 7, &lines);
}

#[test]
fn halves_by_hand_for_the_other_account() {
    let lines = [
        "1 1 1 0 -0.0001",
        "2 2 1 0 -0.0002",
        "3 8 1 0 -0.0002",
        // FPP 1 x -1; used 3 x -1; unused 2 x 0.
        "4 3 1 2 -0.0001",
        "4 4 1 2 -0.0003",
        "4 5 1 2 0.0000",
        "4 6 1 0 0.0001",
        "4 7 1 0 0.0000",
        "4 8 1 0 -0.0001",
        "1 9 1 0 -0.0002",
        "1 10 1 0 -0.0001",
        "2 9 1 0 -0.0001",
        "2 10 1 0 -0.0001",
        "2 9 2 0 -0.0001",
        "2 10 2 0 -0.0001",
    ];
    assert_lines(&small_halves_book(), 9, &lines);
}

// Amounts as large as the rules let them be.

/// "A line would pass 50,000,000,000 either way" is 12: as much is no refusal. FPP pool
/// 2,500,000 x 2,400,000 / 120 = 50,000,000,000; the cost is as much and all used. The
/// lowest DCF of -1,000,000 is of nothing then. All energy is account 7's: of the
/// contract's payment of 50,000,000,000 it has both halves.
#[test]
fn lines_at_the_limit() {
    let most = 50_000_000_000;
    let regulated = Constraint {
        price: 2_500_000,
        rcr: 2_400_000,
        usage: 1_000_000,
        ..constraint(1, 9, 1, 1, most)
    };
    let units = [
        unit_row(1, 1, 7, 1_000_000, 0),
        unit_row(1, 2, 7, -1_000_000, -1_000_000),
    ];
    let energies = [energy_row(7, 0, [-20_000_000, 1, -1, 1])];
    let costs = [regulated, constraint(2, 2, 0, 1, most)];
    let mut book = book_of(&costs, &units, &energies);
    book.contracts = vec![contract(3, 1, most, [1_000_000, 0, 0, 0, 0])];
    let lines = [
        "1 3 1 1 5000000.0000",
        "1 4 1 1 0.0000",
        "1 5 1 1 0.0000",
        "1 3 1 2 -5000000.0000",
        "1 4 1 2 -5000000.0000",
        "1 5 1 2 0.0000",
        "1 6 1 0 0.0000",
        "1 7 1 0 0.0000",
        "1 8 1 0 0.0000",
        "2 1 1 0 -5000000.0000",
        "3 9 1 0 -2500000.0000",
        "3 10 1 0 -2500000.0000",
    ];
    assert_lines(&book, 7, &lines);
}

// 000, appendix A.

/// A.1: delayed (5 minute) raise, service 7, in all regions, $11.16. ASOE in MWh,
/// own of total: NSW1 40 of 640, QLD1 20 of 530, SA1 12 of 80, TAS1 0 of 130, VIC1
/// 22 of 500; together 94 of 1,880. ACE is not printed and not asked for.
///
/// 111,600 x 94,000 / 1,880,000 = 5,580 exactly: -0.5580, as printed.
#[test]
fn guide_a1_contingency() {
    let own_and_rest = [
        (40_000, 600_000),
        (20_000, 510_000),
        (12_000, 68_000),
        (0, 130_000),
        (22_000, 478_000),
    ];
    let row = |account, region, asoe| energy_row(account, region, [0, asoe, 0, 0]);
    let own = (0..)
        .zip(own_and_rest)
        .map(|(at, (own, _))| row(7, at, own));
    let rest = (0..)
        .zip(own_and_rest)
        .map(|(at, (_, rest))| row(9, at, rest));
    let energies: Vec<EnergyRow> = own.chain(rest).collect();
    let book = book_of(&[constraint(1, 7, 0, 31, 111_600)], &[], &energies);
    assert_eq!(
        book.regions.map(|entry| entry.asoe).iter().sum::<i32>(),
        1_880_000
    );
    assert_lines(&book, 7, &["1 2 31 0 -0.5580"]);
}

/// A.2 and A.3, tables 3 to 7. Constraint 1 is F_T+RREG: its response, usage and
/// factors are not printed and made up here. Constraint 2 is F_TASCAP_RREG: cost
/// $1,396.13, price $98.55, RCR 90 MW, usage 0.4, RCF -0.3, DRCF -0.25. Account 7
/// has DUID1 to DUID3, with the DCFs of table 4 (01's worked interval has others);
/// account 9 has the rest of the factors, and of the residual total of 1,600 MWh.
fn guide_regulation_book() -> Book {
    let tasmania = Constraint {
        price: 8_317,
        rcr: 40_000,
        usage: 250_000,
        rcf: 1_000_000,
        drcf: -1_000_000,
        ..constraint(1, 9, 1, TASMANIA, 3_465_500)
    };
    let mainland = Constraint {
        price: 9_855,
        rcr: 90_000,
        usage: 400_000,
        rcf: -300_000,
        drcf: -250_000,
        ..constraint(2, 9, 1, MAINLAND, 13_961_300)
    };
    let residual = |account, region, ace, asoe| energy_row(account, region, [ace, asoe, ace, asoe]);
    book_of(
        &[tasmania, mainland],
        &[
            unit_row(1, 6, 9, -1_000_000, 0),
            unit_row(2, 1, 7, 80_000, 0),
            unit_row(2, 2, 7, -20_000, -40_000),
            unit_row(2, 3, 7, 30_000, -10_000),
            unit_row(2, 4, 9, 890_000, 0),
            unit_row(2, 5, 9, -680_000, -700_000),
        ],
        &[
            residual(7, 0, -5_000, 3_000),
            residual(7, 1, -5_000, 0),
            residual(7, 2, -2_000, 2_000),
            residual(7, 4, -3_000, 0),
            residual(9, 0, -1_000_000, 580_000),
            residual(9, 3, -130_000, 0),
        ],
    )
}

/// Pools: used 13,961,300 x 0.4 = 5,584,520; unused 8,376,780; FPP 9,855 x 90,000 /
/// 120 = 7,391,250. The residual share is 20 / 1,600 = 1/80.
#[test]
fn guide_a2_a3_regulation() {
    let lines = [
        // "Not active in Tas": the guide has no such lines, 01 writes zero lines.
        "1 6 8 0 0.0000",
        "1 7 8 0 0.0000",
        "1 8 8 0 0.0000",
        // DUID1: 7,391,250 x 0.08 = 591,300. NCF and DCF are 0.
        "2 3 23 1 59.1300",
        "2 4 23 1 0.0000",
        "2 5 23 1 0.0000",
        // DUID2: FPP x -0.02 = -147,825; used x -0.02 = -111,690.4, printed -11.1690;
        // unused x -0.04 = -335,071.2.
        "2 3 23 2 -14.7825",
        "2 4 23 2 -11.1690",
        "2 5 23 2 -33.5071",
        // DUID3: FPP x 0.03 = 221,737.5; unused x -0.01 = -83,767.8.
        "2 3 23 3 22.1738",
        "2 4 23 3 0.0000",
        "2 5 23 3 -8.3768",
        // FPP x -0.3 = -2,217,375, / 80 = -27,717.19: printed -2.7717.
        "2 6 23 0 -2.7717",
        // Used x -0.3 = -1,675,356, / 80 = -20,941.95: printed -2.0942.
        "2 7 23 0 -2.0942",
        // Unused x -0.25 = -2,094,195, / 80 = -26,177.44: printed -2.6177.
        "2 8 23 0 -2.6177",
    ];
    assert_lines(&guide_regulation_book(), 7, &lines);
}

#[test]
fn guide_a2_a3_totals() {
    let of = |parts: &[u8]| total(&guide_regulation_book(), 7, 2, parts);
    assert_eq!(of(&[4]), -111_690);
    // Printed -41.8839: 8,376,780 x -0.05 = -418,839.
    assert_eq!(of(&[5]), -418_839);
    // Printed 66.5213: 7,391,250 x 0.09 = 665,212.5.
    assert_eq!(of(&[3]), 665_213);
    // Printed 63.7495: 665,212.5 - 27,717.1875 = 637,495.3125. The rounded lines
    // make one unit of money more, 63.7496, as would the guide's own two figures.
    assert_eq!(of(&[3, 6]), 637_496);
}

/// A.4.1: $100, of which NSW1 has 30% of the benefit and QLD1 70%. In MWh, own of
/// total: NSW1 ACE 40 of 450, ASOE 30 of 500; QLD1 ACE 6 of 470, ASOE 17 of 440.
fn guide_contract_book(kind: u8) -> Book {
    let mut book = book_of(
        &[],
        &[],
        &[
            energy_row(7, 0, [-40_000, 30_000, 0, 0]),
            energy_row(7, 1, [-6_000, 17_000, 0, 0]),
            energy_row(9, 0, [-410_000, 470_000, 0, 0]),
            energy_row(9, 1, [-464_000, 423_000, 0, 0]),
        ],
    );
    (book.header.date, book.header.interval) = (20_250_101, 100);
    book.contracts = vec![contract(1, kind, 1_000_000, [300_000, 700_000, 0, 0, 0])];
    book
}

/// Halves: 150,000 each in NSW1, 350,000 each in QLD1. A test payment is shared in
/// the same way (A.4.2), by the energies of the locked book, which here are the same.
#[test]
fn guide_a4_restart_contract() {
    let lines = [
        // 150,000 x 40 / 450 = 13,333.33; x 30 / 500 = 9,000: 2.2333 as printed.
        "1 9 1 0 -1.3333",
        "1 10 1 0 -0.9000",
        // 350,000 x 6 / 470 = 4,468.09; x 17 / 440 = 13,522.73: 1.7991, printed
        // 1.799 from the exact 1.79908.
        "1 9 2 0 -0.4468",
        "1 10 2 0 -1.3523",
    ];
    for kind in [1, 2] {
        let book = guide_contract_book(kind);
        assert_lines(&book, 7, &lines);
        // Printed -4.0324.
        assert_eq!(total(&book, 7, 1, &[9, 10]), -40_324);
    }
}

// 002, example part 2.

/// F_TASCAP_RREG_0220 with the usage and the RCF given, in millionths: cost
/// $111.07, price $7.84, RCR 214.01 MW, DRCF -0.234, residual total 1,550.37 MWh.
/// Account 7 is MAINPID: three units, and in SA1 -4.88 and 0.98 MWh without those of
/// the units (part 3), which have -4.17 and 7.43 more.
fn summary_book(usage: u32, rcf: i32) -> Book {
    let mainland = Constraint {
        price: 784,
        rcr: 214_010,
        usage,
        rcf,
        drcf: -234_000,
        ..constraint(1, 9, 1, MAINLAND, 1_110_700)
    };
    let mut book = book_of(
        &[mainland],
        &[
            unit_row(1, 1, 7, 3_000, -1_000),
            unit_row(1, 2, 7, 8_000, 0),
            unit_row(1, 3, 7, -2_000, -4_000),
            unit_row(1, 4, 9, 989_000, 0),
            unit_row(1, 5, 9, -998_000 - rcf, -761_000),
        ],
        &[
            energy_row(7, 2, [-9_050, 8_410, -4_880, 980]),
            energy_row(9, 0, [-1_000_000, 544_510, -1_000_000, 544_510]),
        ],
    );
    (book.header.date, book.header.run) = (20_250_202, 9);
    assert_eq!(
        book.regions[0].residual + book.regions[2].residual,
        1_550_370
    );
    book
}

/// From the figures as printed: usage 0.427, RCF -0.274. Pools: FPP 784 x 214,010 /
/// 120 = 1,398,198.67, so 1,398,199; used 1,110,700 x 0.427 = 474,268.9, so 474,269;
/// unused 636,431.
#[test]
fn summary_part_2_as_printed() {
    let lines = [
        // DUID1: 4,194.6 and -636.4; printed 0.4195, 0 and -0.0636.
        "1 3 23 1 0.4195",
        "1 4 23 1 0.0000",
        "1 5 23 1 -0.0636",
        // DUID2: 11,185.6; printed 1.1186, 0 and 0.
        "1 3 23 2 1.1186",
        "1 4 23 2 0.0000",
        "1 5 23 2 0.0000",
        // DUID3: -2,796.4, -948.5, -2,545.7; printed -0.2796, -0.0950 and -0.2544. The
        // last two do not follow from a usage of 0.427: see the next test.
        "1 3 23 3 -0.2796",
        "1 4 23 3 -0.0949",
        "1 5 23 3 -0.2546",
        // Residual pools -383,107, -129,950, -148,925; share 5,860 / 1,550,370. FPP
        // -1,448.1, printed -0.1446: see the next test.
        "1 6 23 0 -0.1448",
        // -491.2 and -562.9. Printed -0.0419 and -0.0485: there the share is of ACE
        // alone, 4.88 / 1,497.17, and would give -0.0424 and -0.0485 here. 01 takes
        // |ASOE| + |ACE|, as 000 does.
        "1 7 23 0 -0.0491",
        "1 8 23 0 -0.0563",
    ];
    let book = summary_book(427_000, -274_000);
    assert_lines(&book, 7, &lines);
    // Printed 1.2584: 1,398,198.67 x 0.009 = 12,583.8. The rounded lines make 12,585.
    assert_eq!(total(&book, 7, 1, &[3]), 12_585);
}

/// A usage of 0.42748 and an RCF of -0.2736 are printed as 0.427 and -0.274. With
/// them all the figures for units come out, and the residual FPP. Pools: used
/// 474,802, unused 635,898; residual FPP -382,547.
#[test]
fn summary_part_2_with_the_digits_not_printed() {
    let lines = [
        "1 3 23 1 0.4195",
        "1 4 23 1 0.0000",
        // -635.9
        "1 5 23 1 -0.0636",
        "1 3 23 2 1.1186",
        "1 4 23 2 0.0000",
        "1 5 23 2 0.0000",
        "1 3 23 3 -0.2796",
        // -949.6 and -2,543.6
        "1 4 23 3 -0.0950",
        "1 5 23 3 -0.2544",
        // -1,445.9
        "1 6 23 0 -0.1446",
        // 474,802 x -0.2736 = -129,905.8; 635,898 x -0.234 = -148,800.1; by |ASOE| +
        // |ACE| -491.0 and -562.4.
        "1 7 23 0 -0.0491",
        "1 8 23 0 -0.0562",
    ];
    let book = summary_book(427_480, -273_600);
    assert_lines(&book, 7, &lines);
    // Printed -0.0950 and -0.3179: 635,898 x -0.005 = -3,179.49. The lines make -3,180.
    assert_eq!(total(&book, 7, 1, &[4]), -950);
    assert_eq!(total(&book, 7, 1, &[5]), -3_180);
}
