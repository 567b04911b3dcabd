//! Compares how the library and the reference read statements back: those that the
//! library writes, those of any lines, each field at and past its edges, other
//! orders, other counts, truncations, turned bits, noise. For each the header, some
//! lines, all lines at once, their numbers into several buffers, and writing it again
//! into several have to be answered the same.

use fervolatro_testing::books::Pair;
use fervolatro_testing::harness::report::shown;
use fervolatro_testing::harness::{Answer, Call, Family, Run, Units, Wanted, LIBRARY};
use fervolatro_testing::requests::accounts::named_by;
use fervolatro_testing::requests::damage::sparse_noise;
use fervolatro_testing::requests::edges;
use fervolatro_testing::requests::faults::Spot;
use fervolatro_testing::requests::generate::{book_of_longest_statement, Sizes};
use fervolatro_testing::requests::random::Random;
use fervolatro_testing::requests::statements::{any_line, any_statement, statement_of_every_part};
use fervolatro_testing::requests::worked::{empty_statement, worked_statement};
use fervolatro_testing::statement::{Line, Statement};
use fervolatro_testing::{library, reference, Entry, Refusal};

/// A header, and each line, in bytes.
const RECORD: usize = 24;

/// The numbers of a line, in bytes.
const FIELDS: usize = 40;

const MOST_LINES: usize = 2_152;

/// The most that a line's amount may be, either way.
const LIMIT: i64 = 50_000_000_000;

/// Amounts at and past the edges of what some part allows.
const AMOUNTS: [i64; 9] = [
    i64::MIN,
    -LIMIT - 1,
    -LIMIT,
    -1,
    0,
    1,
    LIMIT,
    LIMIT + 1,
    i64::MAX,
];

#[test]
fn library_and_reference_read_the_same() {
    Run::over(&FAMILIES, LIBRARY, Units::Shared).finish(&Wanted {
        inputs: 200_000,
        answers: &[
            ("header", &[0, 14]),
            ("line", &[0, 14, 15]),
            ("lines", &[0, 14]),
            ("unpack", &[0, 13, 14]),
            ("rewrite", &[0, 13, 14]),
            ("whole rewrite", &[0, 14]),
        ],
        seen: vec![(WITH_LOCKED.to_owned(), 2_000)],
    });
}

/// Statements that the library writes from two books.
const WITH_LOCKED: &str = "written with a locked book";

const FAMILIES: [Family; 17] = [
    ("written by the library", written_by_library),
    ("the longest written by the library", longest_written),
    ("statements of any lines", any_statements),
    ("dates", dates),
    ("header edges", header_edges),
    ("line edges", line_edges),
    ("what a part allows", parts),
    ("other orders", other_orders),
    ("numbers of lines", numbers_of_lines),
    ("counts unlike the length", counts_unlike_the_length),
    ("truncations", truncations),
    ("every bit of short statements", every_bit),
    ("random bits of long statements", random_bits),
    ("two fields", two_fields),
    ("noise", noise),
    ("noise after a right header", noise_after_header),
    ("one line of noise", one_line_of_noise),
];

/// Asks both for the header, for the first line and the last, for lines that are past
/// the end and one drawn, for all lines, each what it is by its number, and to write
/// the statement again. Says whether the bytes are a statement.
fn compare(run: &mut Run, bytes: &[u8]) -> bool {
    run.input();
    let is_statement = run.compare(Call::Header, bytes).is_ok();
    let lines = run.compare(Call::Lines, bytes);
    for index in indices(run, bytes.len()) {
        if let Ok(line) = compare_line(run, bytes, index) {
            let Ok(Answer::Lines(lines)) = &lines else {
                panic!("it has a line and no lines: {}", shown(bytes));
            };
            assert_eq!(
                line,
                lines[index as usize],
                "line {index}, {}",
                shown(bytes)
            );
        }
    }
    let [just, less, more, _] = rooms(run, FIELDS * lines_in(bytes.len()));
    for room in [just, less, more] {
        let _ = run.compare(Call::Unpack { room }, bytes);
    }
    for room in rooms(run, bytes.len()) {
        let (written, mut lent) = run.compare_into(Call::Rewrite { room }, bytes);
        if let Ok(Answer::Length(length)) = written {
            assert!(lent.buffer()[..length] == *bytes, "{}", shown(bytes));
        }
    }
    let _ = run.compare(Call::WholeRewrite, bytes);
    is_statement
}

/// Compares bytes that have to be a statement.
fn compare_accepted(run: &mut Run, bytes: &[u8]) {
    assert!(compare(run, bytes), "no statement: {}", shown(bytes));
}

fn compare_line(run: &mut Run, bytes: &[u8], index: u64) -> Result<Entry, Refusal> {
    match run.compare(Call::Line { index }, bytes)? {
        Answer::Line(line) => Ok(line),
        other => panic!("a line is answered by {other:?}"),
    }
}

/// The first line, the last, one past it, the highest index there is, and one drawn: a
/// line that is there, or an index that 32 bits or the length in bytes would cut to one.
fn indices(run: &mut Run, length: usize) -> [u64; 5] {
    let lines = lines_in(length) as u64;
    let inner = run.random.below(lines as usize + 1) as u64;
    let drawn = *run.random.pick(&[inner, inner, 1 << 32, 1 << 61, 1 << 63]);
    [0, lines.saturating_sub(1), lines, u64::MAX, drawn]
}

/// Just enough room, one byte less, some more, and any that is no more.
fn rooms(run: &mut Run, length: usize) -> [usize; 4] {
    let longer = *run.random.pick(&[1, 24, 100]);
    let drawn = run.random.below(length + 1);
    [length, length.saturating_sub(1), length + longer, drawn]
}

/// What the library writes for an account is a statement, and the header and the lines
/// read from it are those that the reference settles, in the same order.
fn compare_written(run: &mut Run, pair: &Pair, account: u32) {
    let settled = reference::settle(&pair.encode(), account).expect("it is settled");
    let statement = written(pair, account);
    if pair.read().count() == 2 {
        run.see(WITH_LOCKED);
    }
    compare_accepted(run, &statement);
    assert_eq!(library::header(&statement), Ok(settled.header.heading()));
    for (index, line) in (0..).zip(&settled.lines) {
        let read = compare_line(run, &statement, index);
        assert_eq!(read, Ok(line.entry()), "line {index}");
    }
    let lines = settled.lines.iter().map(Line::entry).collect();
    assert_eq!(library::lines(&statement), Ok(lines));
}

/// An accepted book in which accounts have several rows, with the locked one where it is
/// read, and an account of theirs.
fn books_and_account(run: &mut Run, most: Sizes) -> (Pair, u32) {
    loop {
        let pair = run.accepted(most);
        let accounts = named_by(&pair);
        if !accounts.is_empty() {
            return (pair, *run.random.pick(&accounts));
        }
    }
}

/// A statement of a few lines: one that the library writes, or one of any lines.
fn short_statement(run: &mut Run) -> Statement {
    if run.random.below(4) == 0 {
        let (pair, account) = books_and_account(run, Sizes::SMALL);
        return Statement::decode(&written(&pair, account));
    }
    let lines = run.random.below(7);
    any_statement(&mut run.random, lines)
}

/// Compares each line that a spot names with each of its fields at each edge.
fn compare_line_edges(run: &mut Run, statement: &Statement) {
    let mut bytes = statement.encode();
    for spot in Spot::ALL {
        if let Some(index) = spot.index(statement.lines.len()) {
            edges::each(&mut bytes, line_at(index), edges::LINE, |bytes| {
                compare(run, bytes);
            });
        }
    }
}

/// How many lines a statement of so many bytes has.
fn lines_in(length: usize) -> usize {
    (length / RECORD).saturating_sub(1)
}

/// The offset of a line.
fn line_at(index: usize) -> usize {
    RECORD + index * RECORD
}

/// The statement that the library writes.
fn written(pair: &Pair, account: u32) -> Vec<u8> {
    library::whole_statement(&pair.encode(), account).expect("it is settled")
}

fn written_by_library(run: &mut Run) {
    for (count, most) in [(8_000, Sizes::SMALL), (20, Sizes::LARGEST)] {
        for _ in 0..count {
            let (pair, account) = books_and_account(run, most);
            compare_written(run, &pair, account);
        }
    }
}

/// As many lines as there can be, and what is wrong in one of them.
fn longest_written(run: &mut Run) {
    let (book, account) = book_of_longest_statement(&mut run.random);
    let pair = Pair::alone(book);
    compare_written(run, &pair, account);
    let statement = Statement::decode(&written(&pair, account));
    assert_eq!(statement.lines.len(), MOST_LINES);
    compare_line_edges(run, &statement);
}

fn any_statements(run: &mut Run) {
    for round in 0..20_000 {
        let lines = if round % 100 == 0 { 300 } else { 9 };
        let lines = run.random.below(lines);
        let statement = any_statement(&mut run.random, lines);
        compare_accepted(run, &statement.encode());
    }
}

/// Every day of the years about each end and about leap days, and days and months
/// that there are not.
fn dates(run: &mut Run) {
    let mut statement = empty_statement();
    for year in (2024..=2033).chain(2095..=2101) {
        for month in 0..=13 {
            for day in 0..=32 {
                statement.header.date = year * 10_000 + month * 100 + day;
                compare(run, &statement.encode());
            }
        }
    }
}

fn header_edges(run: &mut Run) {
    let mut statements: Vec<Statement> = (0..60).map(|_| short_statement(run)).collect();
    statements.extend([empty_statement(), worked_statement()]);
    statements.push(any_statement(&mut run.random, MOST_LINES));
    for statement in statements {
        edges::each(
            &mut statement.encode(),
            0,
            edges::STATEMENT_HEADER,
            |bytes| {
                compare(run, bytes);
            },
        );
    }
}

/// Every field of the first, the middle and the last line, just inside and just
/// past both ends of its ranges.
fn line_edges(run: &mut Run) {
    for _ in 0..120 {
        let statement = short_statement(run);
        compare_line_edges(run, &statement);
    }
    for _ in 0..10 {
        let statement = statement_of_every_part(&mut run.random);
        compare_line_edges(run, &statement);
    }
}

/// Every part, and numbers that are none, with masks, units and amounts at and
/// past the edges of what it allows.
fn parts(run: &mut Run) {
    let masks: Vec<u8> = (0..=33).chain([48, 64, 128, 255]).collect();
    for part in (0..=11).chain([255]) {
        for &regions in &masks {
            for unit in [0, 1, 1 << 31, u32::MAX] {
                for amount in AMOUNTS {
                    let line = Line {
                        part,
                        regions,
                        unit,
                        amount,
                        ..any_line(&mut run.random)
                    };
                    compare_among_others(run, line);
                }
            }
        }
    }
}

/// Compares a statement that has the line at some place between right ones.
fn compare_among_others(run: &mut Run, line: Line) {
    let others = run.random.below(3);
    let mut statement = any_statement(&mut run.random, others);
    let index = run.random.below(others + 1);
    statement.lines.insert(index, line);
    compare(run, &statement.encode());
}

/// "Line order isn't judged": lines exchanged, repeated, turned round and mixed, and
/// with a line of another statement, are a statement still.
fn other_orders(run: &mut Run) {
    for _ in 0..8_000 {
        let mut statement = short_statement(run);
        let lines = &mut statement.lines;
        lines.push(any_line(&mut run.random));
        let [one, other] = [0; 2].map(|_| run.random.below(lines.len()));
        match run.random.below(4) {
            0 => lines.swap(one, other),
            1 => lines.insert(one, lines[other]),
            2 => lines.reverse(),
            _ => run.random.shuffle(lines),
        }
        compare_accepted(run, &statement.encode());
    }
}

/// No line, few, the most there can be and more, each with the length that the
/// count gives.
fn numbers_of_lines(run: &mut Run) {
    compare_accepted(run, &empty_statement().encode());
    for lines in [0, 1, 2, 1_000, 2_151, 2_152, 2_153, 2_154, 4_096, 8_192] {
        for _ in 0..3 {
            let bytes = any_statement(&mut run.random, lines).encode();
            let is_statement = compare(run, &bytes);
            assert_eq!(is_statement, lines <= MOST_LINES, "{lines} lines");
        }
    }
}

/// Counts other than that of the lines that are there: near it, at the ends, and
/// such that 8 or 16 bits of the count or of the length would be right.
fn counts_unlike_the_length(run: &mut Run) {
    for lines in [0_u16, 1, 2, 3, 12, 100, 2_151, 2_152] {
        let mut bytes = any_statement(&mut run.random, usize::from(lines)).encode();
        let beside = [lines.wrapping_sub(1), lines + 1, 2 * lines, lines / 2];
        let ends = [0, 1, 2_151, 2_152, 2_153, 32_767, 32_768, 65_535];
        let cut = [lines + 256, lines + 2_048, lines + 8_192, lines + 32_768];
        for count in [beside.as_slice(), &ends, &cut].concat() {
            bytes[14..16].copy_from_slice(&count.to_le_bytes());
            let is_statement = compare(run, &bytes);
            assert_eq!(is_statement, count == lines, "{count} for {lines}");
        }
    }
}

/// Every length from 0 to two lines past the whole; of the longest statement, those
/// about the end of some line.
fn truncations(run: &mut Run) {
    let short = short_statement(run);
    let every_part = statement_of_every_part(&mut run.random);
    for statement in [empty_statement(), worked_statement(), short, every_part] {
        let mut bytes = statement.encode();
        let whole = bytes.len();
        bytes.extend([0; 2 * RECORD]);
        for length in 0..=bytes.len() {
            let is_statement = compare(run, &bytes[..length]);
            assert_eq!(is_statement, length == whole, "length {length} of {whole}");
        }
    }
    let longest = any_statement(&mut run.random, MOST_LINES).encode();
    for index in (0..MOST_LINES).step_by(37) {
        for length in [line_at(index) - 1, line_at(index), line_at(index) + 1] {
            assert!(!compare(run, &longest[..length]), "length {length}");
        }
    }
}

fn every_bit(run: &mut Run) {
    let short = short_statement(run);
    let every_part = statement_of_every_part(&mut run.random);
    for statement in [empty_statement(), worked_statement(), short, every_part] {
        let mut bytes = statement.encode();
        let bits = 0..8 * bytes.len();
        run.each_turned_bit(&mut bytes, bits, |run, bytes| {
            compare(run, bytes);
        });
    }
}

fn random_bits(run: &mut Run) {
    for (lines, count) in [(60, 3_000), (MOST_LINES, 300)] {
        let mut bytes = any_statement(&mut run.random, lines).encode();
        let bits = run.bits_of(&bytes, count);
        run.each_turned_bit(&mut bytes, bits, |run, bytes| {
            compare(run, bytes);
        });
    }
}

/// Two fields at their edges at once, of the header or of any line.
fn two_fields(run: &mut Run) {
    for _ in 0..40_000 {
        let statement = short_statement(run);
        let mut bytes = statement.encode();
        for _ in 0..2 {
            set_random_field(&mut run.random, &mut bytes);
        }
        compare(run, &bytes);
    }
}

/// Sets a field of the header, or of a line if there is one, to one of its edges.
fn set_random_field(random: &mut Random, bytes: &mut [u8]) {
    let record = random.below(bytes.len() / RECORD);
    let fields = match record {
        0 => edges::STATEMENT_HEADER,
        _ => edges::LINE,
    };
    let field = *random.pick(fields);
    field.set(bytes, record * RECORD, *random.pick(&field.values()));
}

fn noise(run: &mut Run) {
    let mut bytes = vec![0; line_at(MOST_LINES) + 100];
    for round in 0..10_000 {
        let most = if round % 100 == 0 { bytes.len() } else { 300 };
        let length = run.random.below(most + 1);
        run.random.fill(&mut bytes[..length]);
        compare(run, &bytes[..length]);
    }
}

/// A right header and the right length; noise from some byte on.
fn noise_after_header(run: &mut Run) {
    for _ in 0..20_000 {
        let mut bytes = short_statement(run).encode();
        let start = RECORD + run.random.below(bytes.len() - RECORD + 1);
        sparse_noise(&mut run.random, &mut bytes[start..]);
        compare(run, &bytes);
    }
}

/// One line replaced by noise or by zeros.
fn one_line_of_noise(run: &mut Run) {
    for _ in 0..12_000 {
        let mut statement = short_statement(run);
        statement.lines.push(any_line(&mut run.random));
        let start = line_at(run.random.below(statement.lines.len()));
        let mut bytes = statement.encode();
        let line = &mut bytes[start..start + RECORD];
        match run.random.below(4) {
            0 => line.fill(0),
            _ => sparse_noise(&mut run.random, line),
        }
        compare(run, &bytes);
    }
}
