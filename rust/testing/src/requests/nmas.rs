//! Random texts of the reconciliation file by the rules for reading one, whether or not
//! the library would write such a thing, and the ways in which a text can be wrong, or
//! right but different.

use crate::reference::spelled;
use crate::requests::generate;
use crate::requests::random::Random;
use crate::NmasRow;

const ENERGY: i64 = 20_000_000;
const MONEY: i64 = 50_000_000_000;
const NAMES: i64 = u32::MAX as i64;

/// A row with any numbers that it may have.
pub fn any_row(random: &mut Random) -> NmasRow {
    let mut row = NmasRow {
        payment_type: random.below(3),
        region: random.below(5),
        ..NmasRow::default()
    };
    for field in &RANGED {
        (field.set)(&mut row, random.edged(field.low, field.high));
    }
    row.date = some_date(random);
    row
}

/// A date of a random book, or one of the ends and the leap days.
fn some_date(random: &mut Random) -> i64 {
    let drawn = generate::header(random).date.into();
    *random.pick(&[drawn, drawn, 20_250_101, 20_991_231, 20_280_229, 20_960_229])
}

/// A text of so many such rows.
pub fn any_text(random: &mut Random, rows: usize) -> Vec<u8> {
    let lines = (0..rows).map(|_| spelled(&any_row(random)));
    lines.collect::<String>().into_bytes()
}

/// A number of a row: both ends of its range, and how it is set.
pub struct Ranged {
    pub name: &'static str,
    pub low: i64,
    pub high: i64,
    pub set: fn(&mut NmasRow, i64),
}

impl Ranged {
    const fn of(name: &'static str, (low, high): (i64, i64), set: fn(&mut NmasRow, i64)) -> Self {
        Ranged {
            name,
            low,
            high,
            set,
        }
    }

    /// Both ends, their neighbours on either side, and numbers whose lowest bits are in
    /// the range.
    pub fn values(&self) -> [i64; 9] {
        [
            self.low - 1,
            self.low,
            self.low + 1,
            self.high - 1,
            self.high,
            self.high + 1,
            self.high + (1 << 32),
            self.low - (1 << 32),
            i64::MAX / 4,
        ]
    }
}

/// Every number with a range. The date's are the first and the last there are; it has
/// others between them that are none. RECOVERY_AMOUNT stays the sum of the last two.
pub const RANGED: [Ranged; 13] = [
    Ranged::of("date", (20_250_101, 20_991_231), |row, to| row.date = to),
    Ranged::of("run", (1, 99), |row, to| row.run = to),
    Ranged::of("interval", (1, 288), |row, to| row.interval = to),
    Ranged::of("account", (1, NAMES), |row, to| row.account = to),
    Ranged::of("contract", (1, NAMES), |row, to| row.contract = to),
    Ranged::of("factor", (1, 1_000_000), |row, to| row.factor = to),
    Ranged::of("payment", (0, MONEY), |row, to| row.payment = to),
    Ranged::of("own ACE", (-ENERGY, 0), |row, to| row.own_ace = to),
    Ranged::of("region ACE", (-ENERGY, 0), |row, to| row.region_ace = to),
    Ranged::of("own ASOE", (0, ENERGY), |row, to| row.own_asoe = to),
    Ranged::of("region ASOE", (0, ENERGY), |row, to| row.region_asoe = to),
    Ranged::of("amount by ACE", (-MONEY, 0), |row, to| {
        row.by_ace = to;
        row.recovery = row.by_ace + row.by_asoe;
    }),
    Ranged::of("amount by ASOE", (-MONEY, 0), |row, to| {
        row.by_asoe = to;
        row.recovery = row.by_ace + row.by_asoe;
    }),
];

/// A change of a text that is not empty and of the form.
#[derive(Clone, Copy)]
pub struct Damage {
    pub name: &'static str,
    pub apply: fn(&mut Random, &mut Vec<u8>),
}

const fn damage(name: &'static str, apply: fn(&mut Random, &mut Vec<u8>)) -> Damage {
    Damage { name, apply }
}

/// Those after which each line is one that was there: the text is still of the form.
pub const HARMLESS: [Damage; 3] = [
    damage("two lines exchanged", |random, text| {
        change_lines(random, text, |random, lines| {
            let [one, other] = [0; 2].map(|_: i32| random.below(lines.len()));
            lines.swap(one, other);
        });
    }),
    damage("a line twice", |random, text| {
        change_lines(random, text, |random, lines| {
            let line = random.pick(lines).clone();
            lines.insert(random.below(lines.len() + 1), line);
        });
    }),
    damage("a line gone", |random, text| {
        change_lines(random, text, |random, lines| {
            lines.remove(random.below(lines.len()));
        });
    }),
];

/// Those after which a line may be of the form or not.
pub const OF_BYTES: [Damage; 6] = [
    damage("one byte changed", |random, text| {
        let at = random.below(text.len());
        text[at] = some_byte(random);
    }),
    damage("one byte removed", |random, text| {
        text.remove(random.below(text.len()));
    }),
    damage("one byte added", |random, text| {
        let byte = some_byte(random);
        text.insert(random.below(text.len() + 1), byte);
    }),
    damage("two bytes side by side exchanged", |random, text| {
        let at = random.below(text.len() - 1);
        text.swap(at, at + 1);
    }),
    damage("two bytes exchanged", |random, text| {
        let [one, other] = [0; 2].map(|_: i32| random.below(text.len()));
        text.swap(one, other);
    }),
    damage("cut short", |random, text| {
        text.truncate(random.below(text.len()));
    }),
];

/// Those that know of fields.
pub const OF_FIELDS: [Damage; 8] = [
    damage("a number spelled otherwise", |random, text| {
        change_field(random, text, |random, field| {
            *field = respelled(random, field)
        });
    }),
    damage("another word", |random, text| {
        let word = random.pick(&WORDS).to_string();
        let at = *random.pick(&[4, 6, 7]);
        change_fields(random, text, |_, fields| fields[at] = word);
    }),
    damage("a field more", |random, text| {
        change_fields(random, text, |random, fields| {
            let field = random.pick(fields).clone();
            fields.insert(random.below(fields.len() + 1), field);
        });
    }),
    damage("a field less", |random, text| {
        change_fields(random, text, |random, fields| {
            fields.remove(random.below(fields.len()));
        });
    }),
    damage("two fields exchanged", |random, text| {
        change_fields(random, text, |random, fields| {
            let at = random.below(fields.len() - 1);
            fields.swap(at, at + 1);
        });
    }),
    damage("another line's field", |random, text| {
        let other = fields_of(random, text);
        let at = random.below(other.len());
        change_fields(random, text, |_, fields| fields[at] = other[at].clone());
    }),
    damage("a digit more or less by one", |random, text| {
        let is_digit = |&at: &usize| text[at].is_ascii_digit();
        let digits: Vec<usize> = (0..text.len()).filter(is_digit).collect();
        let digit = &mut text[*random.pick(&digits)];
        let step = *random.pick(&[1, 9]);
        *digit = b'0' + (*digit - b'0' + step) % 10;
    }),
    damage("another end of a line", |random, text| {
        let end = *random.pick(&["", "\r\n", "\n\n", ",\n", " \n", "\n\r", "\0\n"]);
        change_lines(random, text, |random, lines| {
            let line = random.below(lines.len());
            lines[line] = lines[line].replace('\n', end);
        });
    }),
];

/// Words that stand in a line, and some that do not.
const WORDS: [&str; 19] = [
    "RESTART",
    "AVAILABILITY",
    "ENABLEMENT",
    "COMPENSATION",
    "NSW1",
    "QLD1",
    "SA1",
    "TAS1",
    "VIC1",
    "REACTIVE",
    "LOADSHED",
    "TESTING",
    "restart",
    "Availability",
    "NSW",
    "QLD2",
    "SA11",
    "SNOWY1",
    "",
];

/// One of the bytes that lines have, or one of those beside them, or any.
fn some_byte(random: &mut Random) -> u8 {
    const USUAL: &[u8] = b"00112233456789,,..--\n\n +\r\0/:ARESTNWQLDVIC1nE";
    match random.below(4) {
        0 => random.bits() as u8,
        _ => *random.pick(USUAL),
    }
}

/// The same number in other words, or another one not far from it.
fn respelled(random: &mut Random, field: &str) -> String {
    let bare = field.trim_start_matches('-');
    let shorter = &field[..field.len() - 1];
    let many = "1234567890".repeat(3);
    match random.below(14) {
        0 => format!("0{field}"),
        1 => format!("+{field}"),
        2 => format!("-{field}"),
        3 => format!(" {field}"),
        4 => format!("{field} "),
        5 => format!("{field}0"),
        6 => shorter.to_owned(),
        7 => bare.to_owned(),
        8 => bare.trim_start_matches('0').to_owned(),
        9 => field.replace('.', ""),
        10 => format!("-0{bare}"),
        11 => field.replace(|letter: char| letter.is_ascii_digit(), "0"),
        12 => field.replacen(|letter: char| letter.is_ascii_digit(), &many, 1),
        _ => format!("{shorter}e0"),
    }
}

/// Changes the lines of a text, each with its line feed.
fn change_lines(
    random: &mut Random,
    text: &mut Vec<u8>,
    change: impl FnOnce(&mut Random, &mut Vec<String>),
) {
    let mut lines = lines_of(text);
    change(random, &mut lines);
    *text = lines.concat().into_bytes();
}

fn lines_of(text: &[u8]) -> Vec<String> {
    let text = std::str::from_utf8(text).expect("a good text is");
    text.split_inclusive('\n').map(str::to_owned).collect()
}

/// The fields of one of the lines.
fn fields_of(random: &mut Random, text: &[u8]) -> Vec<String> {
    let lines = lines_of(text);
    let line = random.pick(&lines).trim_end_matches('\n');
    line.split(',').map(str::to_owned).collect()
}

/// Changes the fields of one of the lines.
fn change_fields(
    random: &mut Random,
    text: &mut Vec<u8>,
    change: impl FnOnce(&mut Random, &mut Vec<String>),
) {
    change_lines(random, text, |random, lines| {
        let line = random.below(lines.len());
        let fields = lines[line].trim_end_matches('\n').split(',');
        let mut fields: Vec<String> = fields.map(str::to_owned).collect();
        change(random, &mut fields);
        lines[line] = fields.join(",") + "\n";
    });
}

/// Changes one field of one of the lines.
fn change_field(
    random: &mut Random,
    text: &mut Vec<u8>,
    change: impl FnOnce(&mut Random, &mut String),
) {
    change_fields(random, text, |random, fields| {
        let at = random.below(fields.len());
        change(random, &mut fields[at]);
    });
}

/// Bytes that lines have, in any order: fields of any rows, or letters.
pub fn noise(random: &mut Random) -> Vec<u8> {
    let length = random.below(40);
    if random.coin() {
        return (0..8 * length).map(|_| some_byte(random)).collect();
    }
    let text = any_text(random, 2);
    let mut noise = Vec::new();
    for _ in 0..length {
        noise.extend(fields_of(random, &text).pop().unwrap_or_default().bytes());
        noise.push(*random.pick(b",,,,,\n"));
    }
    noise
}

#[cfg(test)]
mod tests {
    use super::{any_text, HARMLESS, OF_BYTES, OF_FIELDS, RANGED};
    use crate::reference::{read_nmas, spelled};
    use crate::requests::nmas::any_row;
    use crate::requests::random::Random;

    #[test]
    fn any_text_is_of_the_form() {
        let mut random = Random::new(1);
        for rows in (0..12).cycle().take(1_000) {
            let text = any_text(&mut random, rows);
            assert_eq!(read_nmas(&text).map(|rows| rows.len()), Ok(rows));
        }
    }

    #[test]
    fn harmless_changes_leave_the_form_and_others_break_it() {
        let mut random = Random::new(1);
        let mut broken = |apply: fn(&mut Random, &mut Vec<u8>)| {
            let texts = (0..300).filter(|_| {
                let mut text = any_text(&mut random, 4);
                apply(&mut random, &mut text);
                read_nmas(&text).is_err()
            });
            texts.count()
        };
        for damage in HARMLESS {
            assert_eq!(broken(damage.apply), 0, "{}", damage.name);
        }
        for damage in OF_BYTES.iter().chain(&OF_FIELDS) {
            assert!(broken(damage.apply) > 20, "{}", damage.name);
        }
    }

    /// Just inside is read, just outside is not.
    #[test]
    fn ranges_end_where_they_do() {
        let mut random = Random::new(1);
        for field in &RANGED {
            for value in field.values() {
                let mut row = any_row(&mut random);
                (field.set)(&mut row, value);
                let is_inside = (field.low..=field.high).contains(&value);
                // The day after the first and the one before the last are dates.
                let read = read_nmas(spelled(&row).as_bytes());
                assert_eq!(read.is_ok(), is_inside, "{}: {value}", field.name);
            }
        }
    }
}
