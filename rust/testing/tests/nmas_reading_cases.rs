//! Texts to be read as reconciliation files, worked out by hand from the request (02, Req
//! 05) and its ranges, those of the scope document (01). Most differ from the guide's by one
//! thing. Library, fast version and reference all have to give these rows and refusals.

use fervolatro_testing::harness::{Answer, Call, Given, Run, Units, FAST, LIBRARY};
use fervolatro_testing::requests::worked::{PAPER_NSW1, PAPER_QLD1};
use fervolatro_testing::{NmasRow, Refusal};

/// What library, fast version and reference answer, who have to agree.
fn asked(text: impl AsRef<[u8]>, call: Call) -> Given {
    let text = text.as_ref();
    let [given, _] = [LIBRARY, FAST].map(|side| Run::new(side, Units::Own).compare(call, text));
    given
}

fn refused<A>(number: u8, place: usize) -> Result<A, Refusal> {
    Err(Refusal { number, place })
}

/// The text is read, and has so many rows.
fn assert_read(text: &[u8], rows: usize) {
    let given = asked(text, Call::NmasRows);
    let shown = String::from_utf8_lossy(text);
    assert_eq!(given, Ok(Answer::Rows(rows)), "{shown}");
}

/// The text is refused with 19 at this line, whatever is asked for.
fn assert_refused(text: &[u8], line: usize) {
    let shown = String::from_utf8_lossy(text);
    let mut calls = vec![Call::NmasRows];
    calls.extend([0, 1, 2, 99, u64::MAX].map(|index| Call::NmasRow { index }));
    for call in calls {
        assert_eq!(asked(text, call), refused(19, line), "{call:?}: {shown}");
    }
}

/// The paper's line with other fields, by their numbers from 0.
fn line_with(changes: &[(usize, &str)]) -> String {
    let mut fields: Vec<&str> = PAPER_NSW1.trim_end().split(',').collect();
    for &(at, field) in changes {
        fields[at] = field;
    }
    fields.join(",") + "\n"
}

/// A column: its number, what it may be, and what it may not.
type Column<'c> = (usize, &'c [&'c str], &'c [&'c str]);

/// Each value by itself in the first, the second and the third line.
fn assert_column((at, good, bad): Column) {
    for value in good {
        let line = line_with(&[(at, value)]);
        assert_read(line.as_bytes(), 1);
        assert_read([PAPER_QLD1, &line].concat().as_bytes(), 2);
    }
    for value in bad {
        let line = line_with(&[(at, value)]);
        assert_refused(line.as_bytes(), 0);
        assert_refused([PAPER_QLD1, &line].concat().as_bytes(), 1);
        assert_refused(
            [PAPER_QLD1, PAPER_NSW1, &line, &line].concat().as_bytes(),
            2,
        );
    }
}

/// 123456789012345678901234567890 has 30 digits; 2^64 + 1 = 18446744073709551617 and 2^32 +
/// 1 = 4294967297 have the lowest bits of 1.
const MANY: &str = "123456789012345678901234567890";

const NAMES: (&[&str], &[&str]) = (
    &["1", "7", "10", "4294967294", "4294967295"],
    &[
        "0",
        "4294967296",
        "4294967297",
        "18446744073709551617",
        MANY,
        "07",
        "00",
        "+7",
        "-7",
        "-0",
        " 7",
        "7 ",
        "7.0",
        "7.",
        "",
        "7e0",
        "0x7",
        "7\0",
        "\0",
        "7\r",
        "1_000",
        "\u{0667}",
    ],
);

/// The days: 2028 is a leap year, 2025 and 2100 are none.
#[test]
fn dates() {
    assert_column((
        0,
        &["20250101", "20991231", "20280229", "20250228", "20251130"],
        &[
            "20241231",
            "21000101",
            "20250229",
            "20251131",
            "20250100",
            "20250132",
            "20250001",
            "20251301",
            "0",
            "2025010",
            "202501010",
            "020250101",
            "2025-01-01",
            "01/01/2025",
            "4315217397",
        ],
    ));
}

#[test]
fn runs_and_intervals() {
    let never = ["0", "-1", "+1", "01", "001", "1.0", " 1", "1 ", "", MANY];
    assert_column((1, &["1", "2", "98", "99"], &never));
    assert_column((1, &[], &["100", "257", "65537", "4294967297"]));
    assert_column((2, &["1", "9", "10", "287", "288"], &never));
    assert_column((2, &[], &["289", "65537", "0100", "4294967297"]));
}

#[test]
fn accounts_and_contracts() {
    let (good, bad) = NAMES;
    assert_column((3, good, bad));
    assert_column((5, good, bad));
}

/// "SERVICE is RESTART"; the other services of 003, and words beside it.
#[test]
fn services() {
    assert_column((
        4,
        &["RESTART"],
        &[
            "REACTIVE",
            "LOADSHED",
            "restart",
            "Restart",
            "RESTRAT",
            "RESTAR",
            "RESTARTS",
            "RESTARt",
            " RESTART",
            "RESTART ",
            "RESTART\0",
            "",
            "1",
        ],
    ));
}

/// "PAYMENTTYPE is one of that document's three."
#[test]
fn payment_types() {
    assert_column((
        6,
        &["AVAILABILITY", "ENABLEMENT", "COMPENSATION"],
        &[
            "availability",
            "Availability",
            "AVAILABILIT",
            "AVAILABILITYY",
            "AVAILABLE",
            "ENABLEMEN",
            "ENABLEMENTS",
            "ENABLEMeNT",
            "COMPENSATIO",
            "COMPENSATIONS",
            "COMPENSATIoN",
            "TESTING",
            "RESTART",
            "",
            "0",
            "A",
            "AVAILABILITY ",
        ],
    ));
}

/// "NSW1, QLD1, SA1, TAS1, VIC1", and words beside them.
#[test]
fn regions() {
    let beside = [
        "NSW", "NSW2", "NSW11", "nsw1", "QLD", "QLD2", "Qld1", "SA", "SA2", "SA11", "S1", "TAS",
        "TAS2", "TAs1", "VIC", "VIC2", "VIc1", "SNOWY1", "WA1", "ACT1", "", "0", "NSW1 ",
    ];
    assert_column((7, &["NSW1", "QLD1", "SA1", "TAS1", "VIC1"], &beside));
}

/// "Six for the benefit factor", "a benefit factor of 0".
#[test]
fn factors() {
    assert_column((
        8,
        &["0.000001", "0.000002", "0.100000", "0.999999", "1.000000"],
        &[
            "0.000000",
            "-0.000000",
            "1.000001",
            "2.000000",
            "10.000000",
            "-0.300000",
            "+0.300000",
            ".300000",
            "00.300000",
            "0.30000",
            "0.3000000",
            "0.3",
            "0,300000",
            "0 300000",
            "0.",
            "0",
            "1",
            "",
            "0.30000a",
            "0.3e0000",
            "0..30000",
            "123456789012345678901234567890.000000",
            "0.123456789012345678901234567890",
        ],
    ));
}

/// "The whole payment, positive": 0 to 50,000,000,000 units of money.
#[test]
fn payments() {
    assert_column((
        9,
        &[
            "0.0000",
            "0.0001",
            "9.9999",
            "10.0000",
            "4999999.9999",
            "5000000.0000",
        ],
        &[
            "5000000.0001",
            "10000000.0000",
            "-0.0001",
            "-0.0000",
            "-100.0000",
            "+100.0000",
            "100.000",
            "100.00000",
            "100",
            "100.",
            ".0000",
            "0100.0000",
            "00.0000",
            " 100.0000",
            "100.0000 ",
            "100.00 0",
            "100,0000",
            "1 00.0000",
            "",
            "123456789012345678901234567890.0000",
        ],
    ));
}

/// ACE "keeps its minus": -20,000,000 to 0 kWh. "Own energy beyond the region's, totals of
/// 0 are not judged."
#[test]
fn consumed_energies() {
    for at in [11, 12] {
        assert_column((
            at,
            &[
                "0.000",
                "-0.001",
                "-0.999",
                "-1.000",
                "-19999.999",
                "-20000.000",
            ],
            &[
                "-20000.001",
                "-100000.000",
                "0.001",
                "40.000",
                "-0.000",
                "+0.000",
                "--1.000",
                "- 1.000",
                "-",
                "-40",
                "-40.00",
                "-40.0000",
                "-040.000",
                "-.040",
                "-00.040",
                "0.0",
                "00.000",
                "",
                "-123456789012345678901234567890.000",
                "−40.000",
            ],
        ));
    }
}

/// ASOE: 0 to 20,000,000 kWh.
#[test]
fn sent_out_energies() {
    for at in [13, 14] {
        assert_column((
            at,
            &["0.000", "0.001", "0.999", "1.000", "19999.999", "20000.000"],
            &[
                "20000.001",
                "100000.000",
                "-0.001",
                "-0.000",
                "+1.000",
                "30",
                "30.00",
                "30.0000",
                "030.000",
                ".030",
                "00.030",
                "",
                "123456789012345678901234567890.000",
            ],
        ));
    }
}

/// The two last amounts lie in -50,000,000,000 to 0, and RECOVERY_AMOUNT is their sum.
#[test]
fn amounts_and_their_sum() {
    let good = [
        ["0.0000", "0.0000", "0.0000"],
        ["-0.0001", "0.0000", "-0.0001"],
        ["-0.0001", "-0.0001", "0.0000"],
        ["-1.0000", "-0.9999", "-0.0001"],
        ["-5000000.0000", "-5000000.0000", "0.0000"],
        ["-5000000.0000", "0.0000", "-5000000.0000"],
        ["-10000000.0000", "-5000000.0000", "-5000000.0000"],
    ];
    for [sum, by_ace, by_asoe] in good {
        let line = line_with(&[(10, sum), (15, by_ace), (16, by_asoe)]);
        assert_read(line.as_bytes(), 1);
    }
    let bad = [
        ["-5000000.0001", "-5000000.0001", "0.0000"],
        ["-5000000.0001", "0.0000", "-5000000.0001"],
        ["0.0001", "0.0001", "0.0000"],
        ["0.0001", "0.0000", "0.0001"],
        ["0.0000", "1.0000", "-1.0000"],
        ["0.0000", "-1.0000", "1.0000"],
        ["-2.0000", "-1.0000", "1.0000"],
        ["-0.0000", "0.0000", "0.0000"],
        ["0.0000", "-0.0000", "0.0000"],
        ["0.0000", "0.0000", "-0.0000"],
        ["-5000000.0000", "-5000000.0000", "-5000000.0000"],
        ["0.0000", "-5000000.0000", "-5000000.0000"],
    ];
    for [sum, by_ace, by_asoe] in bad {
        let line = line_with(&[(10, sum), (15, by_ace), (16, by_asoe)]);
        assert_refused(line.as_bytes(), 0);
    }
}

/// -1.3333 - 0.9000 = -2.2333 and nothing beside it.
#[test]
fn amounts_beside_the_paper_s() {
    assert_column((
        10,
        &["-2.2333"],
        &[
            "-2.2332", "-2.2334", "2.2333", "0.0000", "-2.233", "-2.22333", "-2.23330", "-02.2333",
            "+-2.2333", "-+2.2333", " -2.2333", "-2.2333 ", "-2,2333", "-22333", "", "-12.2333",
        ],
    ));
    let bad = ["-1.3332", "-1.333", "-1.33330", "-01.3333", "1.3333", ""];
    assert_column((15, &["-1.3333"], &bad));
    let bad = [
        "-0.9001",
        "-0.900",
        "-.9000",
        "-00.9000",
        "0.9000",
        "-0.9000\r",
        "",
    ];
    assert_column((16, &["-0.9000"], &bad));
}

/// What every field of the paper's first line is.
#[test]
fn the_paper_s_row() {
    let row = NmasRow {
        date: 20_250_101,
        run: 1,
        interval: 100,
        account: 7,
        contract: 1,
        payment_type: 0,
        region: 0,
        factor: 300_000,
        payment: 1_000_000,
        recovery: -22_333,
        own_ace: -40_000,
        region_ace: -450_000,
        own_asoe: 30_000,
        region_asoe: 500_000,
        by_ace: -13_333,
        by_asoe: -9_000,
    };
    let given = asked(PAPER_NSW1, Call::NmasRow { index: 0 });
    assert_eq!(given, Ok(Answer::Row(row)));
}

/// What every field of this line is: each is another number.
#[test]
fn a_row_of_different_numbers() {
    let text = "20340506,78,209,4000000001,RESTART,3000000002,COMPENSATION,VIC1,0.654321,\
                1234567.8901,-3333333.3333,-11111.112,-12222.223,13333.334,14444.445,\
                -1111111.1111,-2222222.2222\n";
    let row = NmasRow {
        date: 20_340_506,
        run: 78,
        interval: 209,
        account: 4_000_000_001,
        contract: 3_000_000_002,
        payment_type: 2,
        region: 4,
        factor: 654_321,
        payment: 12_345_678_901,
        recovery: -33_333_333_333,
        own_ace: -11_111_112,
        region_ace: -12_222_223,
        own_asoe: 13_333_334,
        region_asoe: 14_444_445,
        by_ace: -11_111_111_111,
        by_asoe: -22_222_222_222,
    };
    let text = [PAPER_NSW1, text, PAPER_QLD1].concat();
    let given = asked(&text, Call::NmasRow { index: 1 });
    assert_eq!(given, Ok(Answer::Row(row)));
}

/// "Each row is judged alone": order, repeats, other dates, own energy beyond the region's.
#[test]
fn rows_are_judged_alone() {
    let exchanged = [PAPER_QLD1, PAPER_NSW1].concat();
    assert_read(exchanged.as_bytes(), 2);
    assert_read(PAPER_QLD1.repeat(3).as_bytes(), 3);
    let another_day = line_with(&[(0, "20991231"), (3, "8"), (6, "ENABLEMENT")]);
    assert_read([PAPER_NSW1, &another_day].concat().as_bytes(), 2);
    let beyond = line_with(&[(12, "0.000"), (14, "0.000")]);
    assert_read(beyond.as_bytes(), 1);
}

/// More lines than a file can have.
#[test]
fn many_lines() {
    let mut text = PAPER_NSW1.repeat(81) + PAPER_QLD1;
    assert_read(text.as_bytes(), 82);
    for (index, by_ace) in [(0, -13_333), (80, -13_333), (81, -4_468)] {
        let Ok(Answer::Row(row)) = asked(&text, Call::NmasRow { index }) else {
            panic!("no row {index}");
        };
        assert_eq!(row.by_ace, by_ace);
    }
    text.push('x');
    assert_refused(text.as_bytes(), 82);
}

#[test]
fn no_text() {
    assert_read(b"", 0);
    for index in [0, 1, u64::MAX] {
        assert_eq!(asked(b"", Call::NmasRow { index }), refused(15, 0));
    }
}

/// "An empty line is 19", and so is text that stops without a line feed, at that line.
#[test]
fn ends_of_lines() {
    let [one, other] = [PAPER_NSW1, PAPER_QLD1];
    let bare = one.trim_end();
    assert_refused(b"\n", 0);
    assert_refused(b"\r\n", 0);
    assert_refused(format!("\n{one}").as_bytes(), 0);
    assert_refused(format!("{one}\n").as_bytes(), 1);
    assert_refused(format!("{one}\n{other}").as_bytes(), 1);
    assert_refused(bare.as_bytes(), 0);
    assert_refused(format!("{other}{bare}").as_bytes(), 1);
    assert_refused(format!("{bare}{other}").as_bytes(), 0);
    assert_refused(format!("{bare}\r\n").as_bytes(), 0);
    assert_refused(format!("{one}{bare}\r\n").as_bytes(), 1);
    assert_refused(format!("{bare}\r").as_bytes(), 0);
    assert_refused(format!("{one}\r").as_bytes(), 1);
    assert_refused(format!("{bare} \n").as_bytes(), 0);
    assert_refused(format!("{one} ").as_bytes(), 1);
    assert_refused(format!("{one}\0").as_bytes(), 1);
    assert_refused(format!("{bare}\0").as_bytes(), 0);
    assert_refused(format!("\0{one}").as_bytes(), 0);
    assert_refused(format!("{one}{other}0").as_bytes(), 2);
}

/// A mark of the encoding, a title line, and bytes that are no letters.
#[test]
fn what_stands_before() {
    let one = PAPER_NSW1;
    assert_refused(format!("\u{feff}{one}").as_bytes(), 0);
    assert_refused(format!(" {one}").as_bytes(), 0);
    let titles = "SETTLEMENTDATE,VERSIONNO,PERIODID,PARTICIPANTID,SERVICE,CONTRACTID,\
                  PAYMENTTYPE,REGIONID,RBF,PAYMENT_AMOUNT,RECOVERY_AMOUNT,PARTICIPANT_ACE_MWH,\
                  REGION_ACE_MWH,PARTICIPANT_ASOE_MWH,REGION_ASOE_MWH,RECOVERYAMOUNT_ACE,\
                  RECOVERYAMOUNT_ASOE\n";
    assert_refused([titles, one].concat().as_bytes(), 0);
    assert_refused([one.as_bytes(), b"\xff\xfe\n"].concat().as_slice(), 1);
}

/// A field more or less, at the end, at the front and in between; another mark between.
#[test]
fn numbers_of_fields() {
    let bare = PAPER_NSW1.trim_end();
    for line in [
        format!("{bare},\n"),
        format!("{bare},0\n"),
        format!(",{bare}\n"),
        bare.replacen(",1,", ",1,1,", 1) + "\n",
        bare.replace(",-0.9000", "") + "\n",
        bare.replace("20250101,", "") + "\n",
        bare.replace(",RESTART", "") + "\n",
        bare.replace(",RESTART,", ",RESTART,,") + "\n",
        bare.replacen(',', ";", 1) + "\n",
        bare.replacen(',', ", ", 1) + "\n",
        bare.replace(",NSW1", ",\"NSW1\"") + "\n",
        bare.replacen(',', "\n", 1) + "\n",
        bare.replacen(',', "", 1) + "\n",
    ] {
        assert_refused(line.as_bytes(), 0);
        assert_refused([PAPER_QLD1, &line].concat().as_bytes(), 1);
    }
}

/// The first line at fault is told, whatever stands behind it.
#[test]
fn the_first_of_several() {
    let wrong = line_with(&[(1, "0")]);
    let good = PAPER_NSW1;
    assert_refused(
        [&wrong, &wrong].map(|line| &line[..]).concat().as_bytes(),
        0,
    );
    assert_refused([good, good, &wrong, good, "\n"].concat().as_bytes(), 2);
    assert_refused([good, good, good, good, &wrong, "x"].concat().as_bytes(), 4);
    let text = good.repeat(299) + &wrong;
    assert_refused(text.as_bytes(), 299);
}

/// 15 for a number past the end; 19 is looked for first.
#[test]
fn numbers_of_rows() {
    let text = [PAPER_NSW1, PAPER_QLD1].concat();
    for index in [2, 3, 256, 1 << 32, (1 << 32) + 1, u64::MAX] {
        assert_eq!(asked(&text, Call::NmasRow { index }), refused(15, 0));
    }
    let Ok(Answer::Row(row)) = asked(&text, Call::NmasRow { index: 1 }) else {
        panic!("there are two");
    };
    assert_eq!((row.region, row.recovery), (1, -17_991));
    assert_refused(format!("{text}\n").as_bytes(), 2);
}

/// Every length of the paper's file: a line that is cut short is refused.
#[test]
fn every_length() {
    let text = [PAPER_NSW1, PAPER_QLD1].concat();
    let first = PAPER_NSW1.len();
    for length in 0..=text.len() {
        let cut = &text.as_bytes()[..length];
        match length {
            0 => assert_read(cut, 0),
            _ if length == first => assert_read(cut, 1),
            _ if length == text.len() => assert_read(cut, 2),
            _ => assert_refused(cut, usize::from(length > first)),
        }
    }
}
