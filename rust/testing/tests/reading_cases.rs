//! Statements whose reading was worked out by hand from the scope document (01).
//! Library and reference both have to give these answers.
//!
//! Account 7's statement of the worked interval, of 312 bytes, is read, and changed
//! one thing at a time. Its twelve lines stand at 24, 48 and so on; the last, at
//! 288, is "500 8 1 0 -2.6177".

use fervolatro_testing::requests::worked::{empty_statement, worked_book, worked_statement};
use fervolatro_testing::statement::{Header, Line};
use fervolatro_testing::{library, reference, Entry, Heading, Refusal};

const fn refused(number: u8) -> Refusal {
    Refusal { number, place: 0 }
}

/// The header, on which both have to agree.
fn header(bytes: &[u8]) -> Result<Heading, Refusal> {
    let library = library::header(bytes);
    assert_eq!(library, reference::header(bytes));
    library
}

/// The line, on which both have to agree.
fn line(bytes: &[u8], index: u64) -> Result<Entry, Refusal> {
    let library = library::line(bytes, index);
    assert_eq!(library, reference::line(bytes, index), "line {index}");
    library
}

/// The answer to writing the bytes again, on which both have to agree, and the
/// buffer of so much room as the library left it.
fn rewritten(bytes: &[u8], room: usize) -> (Result<usize, Refusal>, Vec<u8>) {
    let mut buffers = [vec![0xa5; room], vec![0xa5; room]];
    let library = library::rewrite(bytes, &mut buffers[0]);
    let reference = reference::rewrite(bytes, &mut buffers[1]);
    assert_eq!(library, reference, "room {room}");
    let [buffer, ours] = buffers;
    assert_eq!(buffer, ours, "room {room}");
    (library, buffer)
}

/// All lines, on which both have to agree.
fn all_lines(bytes: &[u8]) -> Result<Vec<Entry>, Refusal> {
    let library = library::lines(bytes);
    assert_eq!(library, reference::lines(bytes));
    library
}

/// The answer to handing out the numbers of all lines, on which both have to agree,
/// and the buffer of so much room as the library left it.
fn unpacked(bytes: &[u8], room: usize) -> (Result<usize, Refusal>, Vec<u8>) {
    let mut buffers = [vec![0xa5; room], vec![0xa5; room]];
    let library = library::unpack(bytes, &mut buffers[0]);
    let reference = reference::unpack(bytes, &mut buffers[1]);
    assert_eq!(library, reference, "room {room}");
    let [buffer, ours] = buffers;
    assert_eq!(buffer, ours, "room {room}");
    (library, buffer)
}

/// What the library writes for account 7 of the worked book.
fn written() -> Vec<u8> {
    let mut buffer = [0; 312];
    let length = library::statement(&worked_book().encode(), 7, &mut buffer);
    assert_eq!(length, Ok(312));
    buffer.to_vec()
}

// The worked interval.

/// "account 7 date 20250608 interval 1 run 1 lines 12".
#[test]
fn worked_header() {
    let heading = Heading {
        account: 7,
        date: 20_250_608,
        interval: 1,
        run: 1,
        lines: 12,
    };
    assert_eq!(header(&written()), Ok(heading));
}

/// Pools: FPP 9,855 x 90,000 / 120 = 7,391,250; used 13,961,300 x 0.4 = 5,584,520;
/// unused 13,961,300 - 5,584,520 = 8,376,780. Account 7 has 20,000 of the residual
/// 1,600,000 kWh, 1/80.
#[test]
fn worked_lines() {
    let lines = [
        // Unit 1: FPP x 0.08 = 591,300; used x min(0, 0.08) = 0; unused x -0.04 =
        // -335,071.2.
        (0, 3, 1, 591_300),
        (1, 4, 1, 0),
        (2, 5, 1, -335_071),
        // Unit 2: FPP x -0.02 = -147,825.
        (3, 3, 2, -147_825),
        // Unit 3: FPP x 0.03 = 221,737.5, and the half goes away from zero.
        (6, 3, 3, 221_738),
        // Residual FPP x -0.3 = -2,217,375, / 80 = -27,717.2.
        (9, 6, 0, -27_717),
        // Residual unused x -0.25 = -2,094,195, / 80 = -26,177.4.
        (11, 8, 0, -26_177),
    ];
    for (index, part, unit, amount) in lines {
        let entry = Entry {
            id: 500,
            part,
            regions: 1,
            unit,
            amount,
        };
        assert_eq!(line(&written(), index), Ok(entry), "line {index}");
    }
}

/// All twelve lines are those of the listing.
#[test]
fn worked_statement_as_listed() {
    assert_eq!(written(), worked_statement().encode());
    for (index, listed) in (0..).zip(worked_statement().lines) {
        assert_eq!(line(&written(), index), Ok(listed.entry()));
    }
    let listed = worked_statement().lines.iter().map(Line::entry).collect();
    assert_eq!(all_lines(&written()), Ok(listed));
}

/// All lines at once: so many are left as were not taken yet.
#[test]
fn lines_taken_one_by_one() {
    let statement = fervolatro::Statement::read(&written()).expect("it is one");
    let mut lines = statement.lines();
    assert_eq!(lines.len(), 12);
    let amounts = [591_300, 0, -335_071, -147_825];
    assert_eq!(
        lines
            .by_ref()
            .take(4)
            .map(|of| of.amount)
            .collect::<Vec<_>>(),
        amounts
    );
    assert_eq!(lines.len(), 8);
    assert_eq!(lines.next_back().map(|of| of.amount), Some(-26_177));
    assert_eq!(lines.len(), 7);
    assert_eq!(lines.by_ref().last().map(|of| of.amount), Some(-20_942));
    assert_eq!((lines.len(), lines.next()), (0, None));
}

// Which refusal is looked for first.

/// Twelve lines are numbered 0 to 11. In 311 bytes there is no statement, so no line
/// is past its end.
#[test]
fn lines_past_the_end() {
    let whole = written();
    assert!(line(&whole, 11).is_ok());
    for index in [12, 13, 1 << 32, 1 << 61, u64::MAX] {
        assert_eq!(line(&whole, index), Err(refused(15)), "line {index}");
    }
    for index in [0, 11, 12, u64::MAX] {
        assert_eq!(line(&whole[..311], index), Err(refused(14)));
    }
}

/// 24 + 12 x 24 = 312 bytes are needed. 14 is looked for before 13.
#[test]
fn room_to_write_again() {
    let whole = written();
    for room in [0, 24, 311] {
        let untouched = vec![0xa5; room];
        assert_eq!(rewritten(&whole, room), (Err(refused(13)), untouched));
    }
    for room in [312, 313, 400] {
        let later = vec![0xa5; room - 312];
        let buffer = [whole.clone(), later].concat();
        assert_eq!(rewritten(&whole, room), (Ok(312), buffer));
    }
    for room in [0, 310, 311, 400] {
        let untouched = vec![0xa5; room];
        assert_eq!(
            rewritten(&whole[..311], room),
            (Err(refused(14)), untouched)
        );
    }
}

/// Twelve lines of five numbers in 8 bytes each: 480 bytes are needed. 14 is looked for
/// before 13.
#[test]
fn room_for_all_lines() {
    let whole = written();
    for room in [0, 40, 312, 440, 479] {
        let untouched = vec![0xa5; room];
        assert_eq!(unpacked(&whole, room), (Err(refused(13)), untouched));
    }
    for room in [480, 481, 600] {
        let (answer, buffer) = unpacked(&whole, room);
        assert_eq!(answer, Ok(480));
        assert_eq!(buffer[480..], vec![0xa5; room - 480]);
    }
    for room in [0, 479, 480, 600] {
        let untouched = vec![0xa5; room];
        assert_eq!(unpacked(&whole[..311], room), (Err(refused(14)), untouched));
    }
}

/// The numbers of the first unit's second and third line, byte by byte: constraint 500
/// is 0x1f4, and -335,071 is -0x51cdf, in two's complement 0xffff_ffff_fffa_e321.
#[test]
fn numbers_byte_by_byte() {
    let second = [
        [0xf4, 1, 0, 0, 0, 0, 0, 0],
        [4, 0, 0, 0, 0, 0, 0, 0],
        [1, 0, 0, 0, 0, 0, 0, 0],
        [1, 0, 0, 0, 0, 0, 0, 0],
        [0, 0, 0, 0, 0, 0, 0, 0],
    ];
    let third = [
        [0xf4, 1, 0, 0, 0, 0, 0, 0],
        [5, 0, 0, 0, 0, 0, 0, 0],
        [1, 0, 0, 0, 0, 0, 0, 0],
        [1, 0, 0, 0, 0, 0, 0, 0],
        [0x21, 0xe3, 0xfa, 0xff, 0xff, 0xff, 0xff, 0xff],
    ];
    let (_, buffer) = unpacked(&written(), 480);
    assert_eq!(buffer[40..80], second.concat());
    assert_eq!(buffer[80..120], third.concat());
}

/// "0 to 2,152 lines": without any, the header is all. Its fields are here at the
/// upper ends of their ranges.
#[test]
fn no_lines() {
    let bytes = [
        [b'R', b'C', b'S', 0, 1, 0, 0x20, 1], // version 1, interval 288
        [0xff, 0x4c, 0x40, 1, 99, 0, 0, 0],   // date 20,991,231, run 99, no lines
        [0xff, 0xff, 0xff, 0xff, 0, 0, 0, 0], // account 4,294,967,295
    ]
    .concat();
    let heading = Heading {
        account: 4_294_967_295,
        date: 20_991_231,
        interval: 288,
        run: 99,
        lines: 0,
    };
    assert_eq!(header(&bytes), Ok(heading));
    assert_eq!(line(&bytes, 0), Err(refused(15)));
    assert_eq!(all_lines(&bytes), Ok(vec![]));
    assert_eq!(unpacked(&bytes, 3), (Ok(0), vec![0xa5; 3]));
    assert_eq!(rewritten(&bytes, 23), (Err(refused(13)), vec![0xa5; 23]));
    assert_eq!(rewritten(&bytes, 24), (Ok(24), bytes));
}

/// A line byte by byte, its fields at the ends of their ranges: 50,000,000,000 is
/// 0x0b_a43b_7400, and its negative 0xffff_fff4_5bc4_8c00.
#[test]
fn a_line_at_its_ends() {
    let mut bytes = empty_statement().encode();
    bytes[14] = 1;
    bytes.extend(
        [
            [0xff, 0xff, 0xff, 0xff, 5, 31, 0, 0], // id 4,294,967,295, part 5, all regions
            [0xff, 0xff, 0xff, 0xff, 0, 0, 0, 0],  // unit 4,294,967,295
            [0x00, 0x8c, 0xc4, 0x5b, 0xf4, 0xff, 0xff, 0xff],
        ]
        .concat(),
    );
    let entry = Entry {
        id: 4_294_967_295,
        part: 5,
        regions: 31,
        unit: 4_294_967_295,
        amount: -50_000_000_000,
    };
    assert_eq!(line(&bytes, 0), Ok(entry));
    assert_eq!(all_lines(&bytes), Ok(vec![entry]));
    let numbers = [
        [0xff, 0xff, 0xff, 0xff, 0, 0, 0, 0],
        [5, 0, 0, 0, 0, 0, 0, 0],
        [31, 0, 0, 0, 0, 0, 0, 0],
        [0xff, 0xff, 0xff, 0xff, 0, 0, 0, 0],
        [0x00, 0x8c, 0xc4, 0x5b, 0xf4, 0xff, 0xff, 0xff],
    ];
    assert_eq!(unpacked(&bytes, 40), (Ok(40), numbers.concat()));
    assert_eq!(rewritten(&bytes, 48), (Ok(48), bytes));
}

// What is a statement, rule by rule.

/// All calls have to see a statement in the bytes, or none.
fn assert_read(is_statement: bool, name: &str, bytes: &[u8]) {
    let (answer, buffer) = rewritten(bytes, bytes.len());
    if is_statement {
        assert!(header(bytes).is_ok(), "{name}");
        assert!(all_lines(bytes).is_ok(), "{name}");
        assert_eq!(answer, Ok(bytes.len()), "{name}");
        assert_eq!(buffer, bytes, "{name}");
    } else {
        assert_eq!(header(bytes), Err(refused(14)), "{name}");
        assert_eq!(line(bytes, 0), Err(refused(14)), "{name}");
        assert_eq!(all_lines(bytes), Err(refused(14)), "{name}");
        assert_eq!(answer, Err(refused(14)), "{name}");
    }
}

/// A change of one thing: whether the bytes are a statement still, its name, and
/// what it does.
type Case<Changed> = (bool, &'static str, fn(&mut Changed));

const HEADERS: &[Case<Header>] = &[
    (false, "the mark of a book", |of| of.mark = *b"RCB"),
    (false, "a wrong first letter", |of| of.mark = *b"BCS"),
    (false, "a wrong second letter", |of| of.mark = *b"RBS"),
    (false, "a reserved byte", |of| of.reserved = 1),
    (false, "version 0", |of| of.version = 0),
    (false, "version 2", |of| of.version = 2),
    (false, "version 257, whose low byte is 1", |of| {
        of.version = 257
    }),
    (false, "interval 0", |of| of.interval = 0),
    (true, "interval 288", |of| of.interval = 288),
    (false, "interval 289", |of| of.interval = 289),
    (false, "the last day of 2024", |of| of.date = 20_241_231),
    (true, "the first day of 2025", |of| of.date = 20_250_101),
    (false, "29 February 2025", |of| of.date = 20_250_229),
    (true, "29 February 2028", |of| of.date = 20_280_229),
    (false, "31 June", |of| of.date = 20_250_631),
    (false, "month 13", |of| of.date = 20_251_301),
    (true, "the last day of 2099", |of| of.date = 20_991_231),
    (false, "the first day of 2100", |of| of.date = 21_000_101),
    (false, "run 0", |of| of.run = 0),
    (true, "run 99", |of| of.run = 99),
    (false, "run 100", |of| of.run = 100),
    (false, "account 0", |of| of.account = 0),
    (true, "the highest account", |of| of.account = u32::MAX),
    (false, "the first byte of the reserved u32", |of| {
        of.reserved_end = 1
    }),
    (false, "the last byte of the reserved u32", |of| {
        of.reserved_end = 1 << 24
    }),
];

#[test]
fn headers() {
    for (is_statement, name, change) in HEADERS {
        let mut statement = worked_statement();
        change(&mut statement.header);
        assert_read(*is_statement, name, &statement.encode());
    }
}

/// Changes of the last line, of part 8.
const LINES: &[Case<Line>] = &[
    (false, "id 0", |of| of.id = 0),
    (true, "the highest id", |of| of.id = u32::MAX),
    (false, "part 0", |of| of.part = 0),
    (false, "part 11", |of| of.part = 11),
    (false, "part 255", |of| of.part = 255),
    (false, "no regions", |of| of.regions = 0),
    (true, "all regions", |of| of.regions = 31),
    (false, "a sixth region", |of| of.regions = 32),
    (true, "part 9, VIC1", |of| (of.part, of.regions) = (9, 16)),
    (false, "part 9, NSW1 and QLD1", |of| {
        (of.part, of.regions) = (9, 3)
    }),
    (false, "part 9, a sixth region", |of| {
        (of.part, of.regions) = (9, 32)
    }),
    (true, "part 10, TAS1", |of| (of.part, of.regions) = (10, 8)),
    (false, "part 10, TAS1 and VIC1", |of| {
        (of.part, of.regions) = (10, 24)
    }),
    (false, "the first reserved byte", |of| of.reserved = 1),
    (false, "the second reserved byte", |of| of.reserved = 256),
    (false, "the first byte of the reserved u32", |of| {
        of.reserved_mid = 1
    }),
    (false, "the last byte of the reserved u32", |of| {
        of.reserved_mid = 1 << 24
    }),
];

#[test]
fn lines() {
    for (is_statement, name, change) in LINES {
        let mut line = worked_statement().lines[11];
        change(&mut line);
        assert_read(*is_statement, name, &with_last(line));
    }
}

/// "Unit non-zero exactly in parts 3 to 5."
#[test]
fn units_by_part() {
    for part in 1..=10 {
        for unit in [0, 1, 1 << 24, u32::MAX] {
            let is_statement = (unit != 0) == [3, 4, 5].contains(&part);
            let name = format!("part {part}, unit {unit}");
            assert_read(is_statement, &name, &with_last(line_of(part, unit, -1)));
        }
    }
}

/// "Amounts within 50,000,000,000 either way and not positive outside parts 3 and
/// 6": the lowest and the highest amount of each part.
#[test]
fn amounts_by_part() {
    for part in 1..=10 {
        let unit = u32::from([3, 4, 5].contains(&part));
        let highest = match part {
            3 | 6 => 50_000_000_000,
            _ => 0,
        };
        for (is_statement, amount) in [
            (false, i64::MIN),
            (false, -50_000_000_001),
            (true, -50_000_000_000),
            (true, 0),
            (true, highest),
            (false, highest + 1),
            (false, i64::MAX),
        ] {
            let name = format!("part {part}, amount {amount}");
            assert_read(is_statement, &name, &with_last(line_of(part, unit, amount)));
        }
    }
}

/// A line of NSW1.
fn line_of(part: u8, unit: u32, amount: i64) -> Line {
    Line {
        id: 500,
        part,
        regions: 1,
        unit,
        amount,
        ..Line::default()
    }
}

/// The worked statement with another last line.
fn with_last(line: Line) -> Vec<u8> {
    let mut statement = worked_statement();
    statement.lines[11] = line;
    statement.encode()
}

/// "Line order isn't judged", nor whether a line comes twice.
const ORDERS: &[Case<Vec<Line>>] = &[
    (true, "lines turned round", |lines| lines.reverse()),
    (true, "two lines exchanged", |lines| lines.swap(0, 11)),
    (true, "a line repeated", |lines| lines.push(lines[0])),
    (true, "a falling id", |lines| lines[11].id = 499),
    (true, "one line alone", |lines| lines.truncate(1)),
    (true, "2,152 lines", |lines| lines.resize(2_152, lines[0])),
    (false, "2,153 lines", |lines| lines.resize(2_153, lines[0])),
];

#[test]
fn orders_and_numbers_of_lines() {
    for (is_statement, name, change) in ORDERS {
        let mut statement = worked_statement();
        change(&mut statement.lines);
        assert_read(*is_statement, name, &statement.encode());
    }
}

/// "Its length is 24 + 24 x lines"; the line count is the u16 at 14.
const LENGTHS: &[Case<Vec<u8>>] = &[
    (true, "312 bytes", |_| {}),
    (false, "no bytes", |bytes| bytes.clear()),
    (false, "23 bytes", |bytes| bytes.truncate(23)),
    (false, "the header alone, for twelve lines", |bytes| {
        bytes.truncate(24)
    }),
    (false, "a line missing", |bytes| bytes.truncate(288)),
    (false, "a byte missing", |bytes| bytes.truncate(311)),
    (false, "a byte more", |bytes| bytes.push(0)),
    (false, "a right line more", |bytes| {
        bytes.extend_from_within(288..)
    }),
    (false, "a line less counted", |bytes| bytes[14] = 11),
    (false, "a line more counted", |bytes| bytes[14] = 13),
    (false, "268 lines counted", |bytes| bytes[15] = 1),
    (true, "a right line more, and counted", |bytes| {
        bytes.extend_from_within(288..);
        bytes[14] = 13;
    }),
];

#[test]
fn lengths() {
    for (is_statement, name, change) in LENGTHS {
        let mut bytes = worked_statement().encode();
        change(&mut bytes);
        assert_read(*is_statement, name, &bytes);
    }
    assert_read(true, "24 bytes", &empty_statement().encode());
    assert_read(false, "a book", &worked_book().encode());
}
