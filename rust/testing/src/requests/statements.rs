//! Random statements by the rules for reading one: lines of every part with any
//! amounts, in any order, whether or not the library would write such a thing.

use crate::requests::generate;
use crate::requests::random::Random;
use crate::statement::{Header, Line, Statement};

const MONEY_LIMIT: i64 = 50_000_000_000;

/// A statement of so many lines.
pub fn any_statement(random: &mut Random, lines: usize) -> Statement {
    let lines: Vec<Line> = (0..lines).map(|_| any_line(random)).collect();
    with_lines(random, lines)
}

/// A statement with a line of each part, in an order that is drawn.
pub fn statement_of_every_part(random: &mut Random) -> Statement {
    let mut lines: Vec<Line> = (1..=10).map(|part| line_of_part(random, part)).collect();
    random.shuffle(&mut lines);
    with_lines(random, lines)
}

pub fn any_line(random: &mut Random) -> Line {
    let part = random.between(1, 10) as u8;
    line_of_part(random, part)
}

fn with_lines(random: &mut Random, lines: Vec<Line>) -> Statement {
    let of_book = generate::header(random);
    let header = Header {
        mark: *b"RCS",
        version: 1,
        interval: of_book.interval,
        date: of_book.date,
        run: of_book.run,
        lines: u16::try_from(lines.len()).expect("a count has 16 bits"),
        account: name(random),
        ..Header::default()
    };
    Statement { header, lines }
}

fn line_of_part(random: &mut Random, part: u8) -> Line {
    let highest = if matches!(part, 3 | 6) {
        MONEY_LIMIT
    } else {
        0
    };
    Line {
        id: name(random),
        part,
        regions: match part {
            9 | 10 => 1 << random.below(5),
            _ => random.edged(1, 31) as u8,
        },
        unit: match part {
            3..=5 => name(random),
            _ => 0,
        },
        amount: random.edged(-MONEY_LIMIT, highest),
        ..Line::default()
    }
}

/// An id or an account: from 1.
fn name(random: &mut Random) -> u32 {
    random.edged(1, i64::from(u32::MAX)) as u32
}
