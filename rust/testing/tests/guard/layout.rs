//! Guards of `docs/BOOK.md`: that its tables of fields, its limits, its numbers, its
//! refusals, its names and its worked book are those of the definitions, of the code and
//! of the C header.

use std::collections::BTreeMap;

use crate::columns::{columns, COLUMNS, TITLE};
use crate::constants::{constants, Constant, FRONT};
use crate::page::{code_spans, rows, Row};
use crate::repository::{behind, without_groups, Repository};

pub const PAGE: &str = "docs/BOOK.md";
pub const HEADER: &str = "include/fervolatro.h";

/// A record with a table of its fields: the heading's words, how the file of the
/// definitions writes the place of a field, and where its size stands.
struct Record {
    title: &'static str,
    file: &'static str,
    list: &'static str,
    front: &'static str,
    /// What the code calls the record where it gives its size.
    size_of: Option<&'static str>,
}

pub const SIZES: &str = "crates/rules/src/fields.rt";
const ROWS: &str = "crates/records/specs/Rows.antt";
const READING: &str = "crates/parsing/specs/Parsing.antt";
const BOOK: &str = "crates/book/specs/Header.antt";
const UNITS: &str = "crates/ground/specs/Units.antt";
const DISPATCH: &str = "crates/dispatch/specs/Dispatch.antt";
const TABLE: &str = "crates/book/specs/Table.antt";

/// The files that have the ranges.
const RULES: [&str; 8] = [
    COLUMNS,
    DISPATCH,
    BOOK,
    READING,
    UNITS,
    "crates/calendar/specs/Calendar.antt",
    "crates/market/specs/Kinds.antt",
    "crates/rules/specs/Rules.antt",
];

const RECORDS: [Record; 9] = [
    Record::whole("Book header", BOOK, "b"),
    Record::repeated("Region entry", "i * 12", "Entry"),
    Record::repeated("Constraint", "i * 40", "Constraint"),
    Record::repeated("Unit row", "i * 20", "UnitRow"),
    Record::repeated("Energy row", "i * 24", "EnergyRow"),
    Record::repeated("Contract", "i * 36", "Contract"),
    Record::whole("Statement header", READING, "s"),
    Record {
        title: "Line",
        file: READING,
        list: "s",
        front: "line_from i",
        size_of: None,
    },
    Record {
        title: "Dispatch row",
        file: DISPATCH,
        list: "s",
        front: "i * 16",
        size_of: None,
    },
];

impl Record {
    /// One that stands at the front of the bytes.
    const fn whole(title: &'static str, file: &'static str, list: &'static str) -> Self {
        Record {
            title,
            file,
            list,
            front: "",
            size_of: None,
        }
    }

    /// One of a section's.
    const fn repeated(title: &'static str, front: &'static str, size_of: &'static str) -> Self {
        Record {
            title,
            file: ROWS,
            list: "s",
            front,
            size_of: Some(size_of),
        }
    }

    /// The place of an offset, as the definitions write it.
    fn place(&self, offset: usize) -> String {
        let Record { list, front, .. } = self;
        match (front.is_empty(), offset) {
            (true, _) => format!("{list} {offset}"),
            (false, 0) => format!("{list} ({front})"),
            (false, _) => format!("{list} ({front} + {offset})"),
        }
    }

    /// Whether the definitions read so many bytes at this offset.
    fn is_read(&self, definitions: &str, offset: usize, bytes: usize) -> bool {
        let readers: &[&str] = match bytes {
            1 => &["byte_at"],
            2 => &["u16_at"],
            // Three letters are compared one by one.
            3 => &["u24_at", "byte_at"],
            4 => &["u32_at"],
            8 => &["u64_at", "i64_at"],
            _ => &[],
        };
        let place = self.place(offset);
        let reads = readers.iter().map(|reader| format!("{reader} {place}"));
        reads.into_iter().any(|read| has_whole(definitions, &read))
    }
}

/// Whether a text has these words, and no digit goes on where they end.
fn has_whole(text: &str, words: &str) -> bool {
    let mut rests = behind(text, words);
    rests.any(|rest| !rest.starts_with(|next: char| next.is_ascii_digit()))
}

/// The numbers of a cell, without their commas.
fn numbers(cell: &str) -> impl Iterator<Item = String> + '_ {
    let words = cell.split(|letter: char| !letter.is_ascii_digit() && letter != ',');
    let words = words.map(|word| word.replace(',', ""));
    words.filter(|word| !word.is_empty())
}

/// Whether a number stands in a text by itself.
fn has_number(text: &str, number: &str) -> bool {
    let mut words = text.split(|letter: char| !letter.is_ascii_digit());
    words.any(|word| word == number)
}

/// A number as the page writes it, `39,796`.
fn number(text: &str) -> Option<usize> {
    text.replace(',', "").parse().ok()
}

/// Fields that leave a gap, are read elsewhere or in another width, and records that do
/// not have the size that their heading and the definitions give.
pub fn unlike_the_definitions(repository: &Repository) -> Vec<String> {
    let rows = rows(repository.text(PAGE));
    let complaints = RECORDS.iter().flat_map(|record| {
        let about = format!("{PAGE}, {}: ", record.title);
        let why = why_unlike(repository, record, &rows);
        why.into_iter().map(move |why| format!("{about}{why}"))
    });
    let of_a_file = rows.iter().filter(|row| row.under == TITLE);
    let ranges = of_a_file.flat_map(|row| {
        let about = format!("{PAGE}, {}: ", row.cell("Name").unwrap_or(""));
        let why = outside_the_rules(repository, row);
        why.into_iter().map(move |why| format!("{about}{why}"))
    });
    complaints.chain(ranges).collect()
}

/// The numbers of a field's range that no rule has.
fn outside_the_rules(repository: &Repository, row: &Row) -> Vec<String> {
    let has =
        |file: &&str, number: &str| has_number(&without_groups(repository.text(file)), number);
    let range = numbers(row.cell("Range").unwrap_or(""));
    let unknown = range.filter(|number| !RULES.iter().any(|file| has(file, number)));
    unknown
        .map(|number| format!("no rule has the {number} of its range"))
        .collect()
}

/// How a kind of record begins that has so many bytes: the code's number, and the one
/// that contracts speak of.
pub fn size_given(name: &str, bytes: usize) -> String {
    let front = format!("impl Ruled for {name} {{\n    const SIZE: usize = {bytes};\n");
    format!("{front}\n    ghost SIZE = {{ {bytes} }};\n")
}

fn why_unlike(repository: &Repository, record: &Record, rows: &[Row]) -> Vec<String> {
    let front = format!("{}, ", record.title);
    let fields = rows.iter().filter(|row| {
        let is_of_record = row.under.starts_with(&front);
        is_of_record && row.cell("Offset").is_some()
    });
    let definitions = repository.text(record.file);
    let (mut why, mut end, mut size) = (Vec::new(), 0, None);
    for row in fields {
        let cell = |column| row.cell(column).and_then(number);
        let (Some(offset), Some(bytes)) = (cell("Offset"), cell("Bytes")) else {
            why.push(format!("{:?} has no offset", row.cells));
            continue;
        };
        if offset != end {
            why.push(format!(
                "a field stands at {offset}, the one before ends at {end}"
            ));
        }
        if !record.is_read(definitions, offset, bytes) {
            why.push(format!("{} has no {bytes} bytes at {offset}", record.file));
        }
        why.extend(outside_the_rules(repository, row));
        end = offset + bytes;
        size = row.under.strip_prefix(&front).map(str::to_owned);
    }
    if size != Some(format!("{end} bytes")) {
        why.push(format!(
            "its fields make {end} bytes, its heading has {size:?}"
        ));
    }
    if let Some(name) = record.size_of {
        if !repository.text(SIZES).contains(&size_given(name, end)) {
            why.push(format!("{SIZES} does not give it {end} bytes"));
        }
    }
    why
}

/// Bytes of the worked book that the page has otherwise than the proved cases, and a
/// listing that is not the program's.
pub fn another_worked_book(repository: &Repository) -> Vec<String> {
    let page = repository.text(PAGE);
    let worked = worked_book(repository);
    let rows = rows(page).into_iter();
    let rows = rows.filter(|row| row.cell("What they say").is_some());
    let (mut complaints, mut end) = (Vec::new(), 0);
    for row in rows {
        let cell = row.cell("Bytes").unwrap_or("");
        let offset = number(row.first());
        let bytes = bytes_of(cell);
        if offset != Some(end) || worked.get(end..end + bytes.len()) != Some(&bytes[..]) {
            complaints.push(format!("{PAGE} has {cell} at {}", row.first()));
        }
        end += bytes.len();
    }
    if end != worked.len() {
        complaints.push(format!("{PAGE} has {end} bytes of {}", worked.len()));
    }
    let listing = repository.text("crates/listing/stdout");
    if listing.is_empty() || !page.contains(&format!("```\n{listing}```")) {
        complaints.push(format!("{PAGE} has another listing"));
    }
    complaints
}

/// `52 43`, or so many times the same, 48 bytes `00`.
fn bytes_of(cell: &str) -> Vec<u8> {
    let spans = code_spans(cell);
    let words = spans.first().map_or("", |span| span).split(' ');
    let bytes = words.filter_map(|word| u8::from_str_radix(word, 16).ok());
    let times = cell
        .split_once(" bytes")
        .and_then(|(times, _)| number(times));
    bytes.collect::<Vec<u8>>().repeat(times.unwrap_or(1))
}

/// The bytes of the worked book, as the proved cases have them.
pub fn worked_book(repository: &Repository) -> Vec<u8> {
    let cases = repository.text("crates/cases/specs/Cases.antt");
    let (_, rest) = cases
        .split_once("\nworked =\n")
        .expect("the cases have the worked book's bytes");
    let (list, _) = rest
        .split_once("\n\n")
        .expect("a line is left free behind them");
    let words = list.split(|c: char| !c.is_ascii_digit());
    let numbers = words.filter(|word| !word.is_empty());
    numbers
        .map(|number| number.parse().expect("each is a byte"))
        .collect()
}

/// The number that stands behind these words in a file.
fn number_after(repository: &Repository, path: &str, words: &str) -> Option<usize> {
    let text = without_groups(repository.text(path));
    let rest = behind(&text, words).next()?;
    let mut digits = rest.trim_start().split(|next: char| !next.is_ascii_digit());
    digits.next()?.parse().ok()
}

/// The limits that the definitions have, by the page's words for them.
fn limits(repository: &Repository) -> Option<Vec<(&'static str, usize)>> {
    let count = |field: &str| number_after(repository, BOOK, &format!("leb h.{field} "));
    let counts = ["constraints", "units", "energies", "contracts"].map(count);
    let [constraints, units, energies, contracts] = counts;
    let (constraints, units) = (constraints?, units?);
    let (energies, contracts) = (energies?, contracts?);
    let shortest = number_after(repository, TABLE, "unless (leb ")?;
    let lines = number_after(repository, UNITS, "most_lines = ")?;
    let header = number_after(repository, READING, "line_from i = ")?;
    let amount = number_after(repository, UNITS, "money_limit = ")?;
    let rows = constraints * 40 + units * 20 + energies * 24 + contracts * 36;
    let mut limits = vec![
        ("smallest book, bytes", shortest),
        ("constraints", constraints),
        ("unit rows", units),
        ("energy rows", energies),
        ("contracts", contracts),
        ("largest book, bytes", shortest + rows),
        (
            "header of a book or of a statement, and a line, bytes",
            header,
        ),
        ("most lines of a statement", lines),
        ("longest statement, bytes", header + header * lines),
        ("cost, payment, FPP pool or a line's amount in size", amount),
    ];
    limits.extend(dispatch_limits(repository)?);
    limits.extend(file_limits(repository, contracts)?);
    Some(limits)
}

fn dispatch_limits(repository: &Repository) -> Option<[(&'static str, usize); 4]> {
    let limit = |file, words| number_after(repository, file, words);
    Some([
        ("dispatch row, bytes", limit(DISPATCH, "at_record 16 0 ")?),
        ("price of a dispatch row", limit(UNITS, "price_limit = ")?),
        (
            "enablement of a dispatch row",
            limit(DISPATCH, "enablement_limit = ")?,
        ),
        (
            "price times enablement of a dispatch row",
            limit(DISPATCH, "product_limit = ")?,
        ),
    ])
}

/// A row for each contract and each region, every field of it as long as it can be, and a
/// byte behind each.
fn file_limits(repository: &Repository, contracts: usize) -> Option<[(&'static str, usize); 3]> {
    let regions = number_after(repository, TABLE, "entry_ok (B.entry i))")?;
    let rows = contracts * regions;
    let line: usize = columns(repository)
        .iter()
        .map(|column| column.longest + 1)
        .sum();
    Some([
        ("rows of a reconciliation file that is written", rows),
        ("line of a reconciliation file, bytes", line),
        ("reconciliation file that is written, bytes", rows * line),
    ])
}

/// Limits that are not those of the definitions, and large numbers of the header that the
/// page does not have.
pub fn other_limits(repository: &Repository) -> Vec<String> {
    let page = repository.text(PAGE);
    let rows = rows(page);
    let rows: Vec<&Row> = rows.iter().filter(|row| row.under == "Limits").collect();
    let Some(limits) = limits(repository) else {
        return vec!["the limits do not stand where they stood in the definitions".to_owned()];
    };
    let mut complaints = Vec::new();
    for (what, limit) in &limits {
        let row = rows.iter().find(|row| row.first() == *what);
        let said = row.and_then(|row| number(row.cell("Number")?));
        if said != Some(*limit) {
            complaints.push(format!(
                "{PAGE}, {what}: {said:?}, the definitions have {limit}"
            ));
        }
    }
    let known = |row: &&&Row| !limits.iter().any(|(what, _)| *what == row.first());
    let unknown = rows.iter().filter(known);
    complaints.extend(unknown.map(|row| format!("{PAGE} has a limit of {}", row.first())));
    let ours: Vec<&str> = long_numbers(page).collect();
    let theirs = long_numbers(repository.text(HEADER)).filter(|number| !ours.contains(number));
    complaints.extend(theirs.map(|number| format!("{PAGE} does not have the header's {number}")));
    complaints
}

/// The numbers of a text that are written with commas.
fn long_numbers(text: &str) -> impl Iterator<Item = &str> {
    let words = text.split(|letter: char| !letter.is_ascii_digit() && letter != ',');
    let words = words.map(|word| word.trim_matches(','));
    words.filter(|word| word.contains(','))
}

const MARKET: &str = "crates/market/src/lib.rt";
const POOLS: &str = "crates/balance/specs/Pools.antt";

/// Services, regions, modes and payment types that the page numbers or names otherwise
/// than the code's constants, and parts that it puts in another pool than the definitions.
pub fn other_numbers(repository: &Repository) -> Vec<String> {
    let rows = rows(repository.text(PAGE));
    let market = repository.text(MARKET);
    let mut complaints = Vec::new();
    for (title, kind, front, end) in [
        (
            "Services",
            "Service",
            ": Service = Service { number: ",
            " };",
        ),
        ("Regions", "Region", ": Region = Region { number: ", " };"),
        ("Modes", "Mode", ": u8 = ", ";"),
        ("Payment types", "PaymentType", ": u8 = ", ";"),
    ] {
        let constants = of_kind(market, kind).lines().filter_map(|line| {
            let (name, number) = line.trim().strip_suffix(end)?.split_once(front)?;
            let name = name.strip_prefix("pub const ")?;
            Some((number.to_owned(), name.replace('_', " ").to_lowercase()))
        });
        let constants: Vec<(String, String)> = constants.collect();
        let of_page = rows.iter().filter(|row| row.under == title);
        let of_page: Vec<(String, String)> = of_page.map(numbered).collect();
        let is_same = constants.len() == of_page.len()
            && constants
                .iter()
                .zip(&of_page)
                .all(|((number, name), (no, said))| {
                    number == no && said.starts_with(name.as_str())
                });
        if !is_same || constants.is_empty() {
            complaints.push(format!(
                "{PAGE}, {title}: {of_page:?}, {MARKET} has {constants:?}"
            ));
        }
    }
    let bits = rows.iter().filter(|row| row.under == "Regions");
    let is_bit = |row: &&Row| {
        let bit = number(row.first()).map(|region| (1 << region).to_string());
        row.cell("Bit in a mask") == bit.as_deref()
    };
    let wrong = bits.filter(|row| !is_bit(row));
    complaints.extend(wrong.map(|row| format!("{PAGE}, Regions: {:?}", row.cells)));
    complaints.extend(parts_elsewhere(repository, &rows));
    complaints
}

/// What the code has of a kind: the constants and functions that belong to it.
fn of_kind<'a>(code: &'a str, kind: &str) -> &'a str {
    let begin = format!("\nimpl {kind} {{\n");
    let of_kind = code.split_once(&begin).map_or("", |(_, rest)| rest);
    of_kind.split("\n}").next().unwrap_or(of_kind)
}

/// Number and name of a row, in small letters.
fn numbered(row: &Row) -> (String, String) {
    let name = row.cells.get(1).map_or("", String::as_str);
    let name = name.trim_matches('`').to_lowercase();
    (row.first().to_owned(), name)
}

/// Parts that the page puts in another pool than the definitions.
fn parts_elsewhere(repository: &Repository, rows: &[Row]) -> Vec<String> {
    let mut complaints = Vec::new();
    let parts: Vec<&Row> = rows.iter().filter(|row| row.under == "Parts").collect();
    for (kind, pool) in [
        ("Contingency", "cost"),
        ("Fpp", "FPP"),
        ("Used", "used"),
        ("Unused", "unused"),
        ("Payment", "payment"),
    ] {
        let front = format!(" {kind} part = ");
        let lines = repository.text(POOLS).lines();
        let rules = lines.filter_map(|line| line.split_once(&front));
        let theirs: Vec<String> = rules.flat_map(|(_, rule)| numbers(rule)).collect();
        let ours = parts.iter().filter(|row| row.cell("Pool") == Some(pool));
        let ours: Vec<String> = ours.map(|row| row.first().to_owned()).collect();
        if ours != theirs || ours.is_empty() {
            complaints.push(format!(
                "{PAGE}, Parts: {ours:?} of {pool}, {POOLS} has {theirs:?}"
            ));
        }
    }
    if parts.len() != 10 {
        complaints.push(format!("{PAGE} has {} parts", parts.len()));
    }
    complaints
}

/// How many refusals there are.
pub const REFUSALS: usize = 19;

/// A row of one of the header's tables of refusals.
#[derive(Debug, PartialEq)]
struct Refusal {
    number: String,
    when: String,
    place: String,
}

/// The rows of the header's tables `No  Given exactly when  Place`, but those of 0 and
/// those that only lead to another call's table.
fn refusals(header: &str) -> Vec<Refusal> {
    let mut refusals: Vec<Refusal> = Vec::new();
    let mut columns = None;
    for line in header.lines() {
        let line = line.strip_prefix(" *").unwrap_or("");
        if let (Some(when), Some(place)) = (line.find("Given exactly when"), line.find("Place")) {
            columns = Some((when, place));
            continue;
        }
        let Some((when, place)) = columns.filter(|_| !line.trim().is_empty()) else {
            columns = None;
            continue;
        };
        let part = |from: usize, to: usize| line.get(from..to.min(line.len())).unwrap_or("").trim();
        let number = part(0, when);
        if !number.is_empty() {
            refusals.push(Refusal {
                number: number.to_owned(),
                when: String::new(),
                place: String::new(),
            });
        }
        if let Some(last) = refusals.last_mut() {
            go_on(&mut last.when, part(when, place));
            go_on(&mut last.place, part(place, line.len()));
        }
    }
    let leads_on = |refusal: &Refusal| refusal.when.starts_with("to ");
    refusals.retain(|refusal| refusal.number != "0" && !leads_on(refusal));
    refusals
}

/// Adds a line to a text: a word that was divided is made whole.
fn go_on(text: &mut String, more: &str) {
    if !text.is_empty() && !more.is_empty() && !text.ends_with('-') {
        text.push(' ');
    }
    text.push_str(more);
}

/// Whether the page's row says of a refusal what the header says.
fn is_said(row: &Row, refusal: &Refusal) -> bool {
    let said = row.cell("Given exactly when").unwrap_or("");
    // The header call's table says "they are not" of the row before it.
    let is_when = |said| said == refusal.when || refusal.when.starts_with("they ");
    said.split("; ").any(is_when) && row.cell("Place") == Some(&refusal.place)
}

/// Refusals that the page and the header's tables do not have alike. Where the header has
/// several wordings of one, the page has each, with a semicolon between them.
pub fn other_refusals(repository: &Repository) -> Vec<String> {
    let rows = rows(repository.text(PAGE));
    let ours: BTreeMap<&str, &Row> = rows
        .iter()
        .filter(|row| row.under == "Refusals" && row.cell("Given exactly when").is_some())
        .map(|row| (row.first(), row))
        .collect();
    let theirs = refusals(repository.text(HEADER));
    let mut complaints = Vec::new();
    for refusal in &theirs {
        let row = ours.get(refusal.number.as_str());
        if !row.is_some_and(|row| is_said(row, refusal)) {
            let Refusal {
                number,
                when,
                place,
            } = refusal;
            complaints.push(format!(
                "refusal {number}: the header has {when:?}, {place:?}"
            ));
        }
    }
    for number in 1..=REFUSALS {
        let number = number.to_string();
        let is_there = theirs.iter().any(|refusal| refusal.number == number);
        if !is_there || !ours.contains_key(number.as_str()) {
            complaints.push(format!(
                "refusal {number} is not in both {PAGE} and {HEADER}"
            ));
        }
    }
    if ours.len() != REFUSALS {
        complaints.push(format!("{PAGE} has {} refusals", ours.len()));
    }
    complaints
}

/// Constants of the header that the page's table of names does not have with their
/// values, and names in that table that the header does not have.
pub fn other_names(repository: &Repository) -> Vec<String> {
    let theirs = constants(repository);
    let rows = rows(repository.text(PAGE));
    let mut ours = BTreeMap::new();
    for row in rows.iter().filter(|row| row.under == "Names in the header") {
        let value = row.cell("Value").unwrap_or("").replace(',', "");
        for name in code_spans(row.first()) {
            ours.insert(name.to_owned(), value.clone());
        }
    }
    let mut complaints = Vec::new();
    for Constant { name, value, .. } in &theirs {
        let name = format!("{FRONT}{name}");
        if ours.remove(&name).as_ref() != Some(value) {
            complaints.push(format!("{PAGE} does not have {name}, {value}"));
        }
    }
    complaints.extend(ours.keys().map(|name| format!("{HEADER} has no {name}")));
    complaints
}
