//! The columns of the reconciliation file, as the definitions list them, and guards of
//! the two tables of them: the page's and the header's.

use crate::page::{rows, Row};
use crate::repository::{without_groups, Repository};

pub const COLUMNS: &str = "crates/columns/specs/Columns.antt";
pub const WORDS: &str = "crates/market/specs/Words.antt";
const UNITS: &str = "crates/ground/specs/Units.antt";
const PAGE: &str = "docs/BOOK.md";
const HEADER: &str = "include/fervolatro.h";

/// The heading of the page's table.
pub const TITLE: &str = "Fields of a file";

/// A column: its name, its decimals, and how many bytes its longest field has.
#[derive(Debug)]
pub struct Column {
    pub name: String,
    decimals: usize,
    pub longest: usize,
}

/// The columns in their order: each is a line `form -- NAME` of the definitions, where
/// more words may stand behind a comma.
pub fn columns(repository: &Repository) -> Vec<Column> {
    let definitions = without_groups(repository.text(COLUMNS));
    let lines = definitions.lines().filter_map(|line| {
        let (form, said) = line.trim().split_once(" -- ")?;
        Some((form.trim_start_matches("∷ "), said))
    });
    let columns = lines.filter_map(|(form, said)| {
        let (decimals, longest) = measure(repository, form)?;
        let name = said.split(',').next()?.to_owned();
        Some(Column {
            name,
            decimals,
            longest,
        })
    });
    columns.collect()
}

/// The decimals and the longest field of a form: `number_form decimals least most`,
/// `charge_form decimals most`, which has a minus, or `word_form words most`.
fn measure(repository: &Repository, form: &str) -> Option<(usize, usize)> {
    let words: Vec<&str> = form.split_whitespace().collect();
    let number = |decimals: &str, most| {
        let decimals: usize = decimals.parse().ok()?;
        let digits = digits(repository, most)?.max(decimals + 1);
        Some((decimals, digits + usize::from(decimals > 0)))
    };
    match words[..] {
        ["number_form", decimals, _, most] => number(decimals, most),
        ["charge_form", decimals, most] => {
            let (decimals, longest) = number(decimals, most)?;
            Some((decimals, longest + 1))
        }
        ["word_form", kind, _] => {
            let words = words_of(repository, list_of(kind)?);
            Some((0, words.iter().map(String::len).max()?))
        }
        _ => None,
    }
}

/// The digits of a number, which may stand under its name.
fn digits(repository: &Repository, number: &str) -> Option<usize> {
    let is_number = |text: &str| text.chars().all(|digit| digit.is_ascii_digit());
    if is_number(number) {
        return Some(number.len());
    }
    let units = without_groups(repository.text(UNITS));
    let (_, value) = units.split_once(&format!("\n{number} = "))?;
    let value = value.lines().next()?;
    is_number(value).then_some(value.len())
}

/// The list of the definitions that has a kind's words.
fn list_of(kind: &str) -> Option<&'static str> {
    match kind {
        "Service" => Some("restart_name"),
        "PaymentType" => Some("payment_types"),
        "Region" => Some("region_names"),
        _ => None,
    }
}

/// The words of a list, each of which stands there letter by letter.
pub fn words_of(repository: &Repository, list: &str) -> Vec<String> {
    let definitions = repository.text(WORDS);
    let begin = format!("\n{list} =");
    let Some((_, rest)) = definitions.split_once(&begin) else {
        return Vec::new();
    };
    let body = rest.split("\n\n").next().unwrap_or("");
    let words = body.split("[]").map(|word| {
        let letters = word.split(|letter: char| !letter.is_ascii_digit());
        let letters = letters.filter_map(|letter| letter.parse::<u8>().ok());
        letters.map(char::from).collect::<String>()
    });
    words.filter(|word| !word.is_empty()).collect()
}

/// Fields of the page's table and of the header's that are not the definitions' columns,
/// in their order and with their decimals.
pub fn unlike_the_definitions(repository: &Repository) -> Vec<String> {
    let columns = columns(repository);
    let theirs: Vec<(String, usize)> = columns
        .into_iter()
        .map(|column| (column.name, column.decimals))
        .collect();
    let mut complaints = Vec::new();
    for (file, ours) in [
        (PAGE, on_the_page(repository)),
        (HEADER, in_the_header(repository)),
    ] {
        for at in 0..ours.len().max(theirs.len()) {
            let (ours, theirs) = (ours.get(at), theirs.get(at));
            if ours != theirs {
                complaints.push(format!("{file} has {ours:?}, {COLUMNS} {theirs:?}"));
            }
        }
    }
    if theirs.is_empty() {
        complaints.push(format!("{COLUMNS} has no columns"));
    }
    complaints
}

/// Names and decimals of the page's table.
fn on_the_page(repository: &Repository) -> Vec<(String, usize)> {
    let rows = rows(repository.text(PAGE)).into_iter();
    let fields = rows.filter(|row| row.under == TITLE);
    let named = |row: Row| {
        let cell = |column| row.cell(column).unwrap_or("");
        (
            cell("Name").to_owned(),
            cell("Decimals").parse().unwrap_or(0),
        )
    };
    fields.map(named).collect()
}

/// Names and decimals of the header's table `Field  What it is  Decimals`: a field's line
/// begins with its name, and ends with its decimals where it has any.
fn in_the_header(repository: &Repository) -> Vec<(String, usize)> {
    let header = repository.text(HEADER);
    let table = header.split_once("Field                 What it is");
    let table = table.and_then(|(_, rest)| rest.split_once("\n *\n"));
    let lines = table.map_or("", |(table, _)| table).lines().skip(1);
    let fields = lines.filter_map(|line| {
        let line = line
            .strip_prefix(" *   ")
            .filter(|line| !line.starts_with(' '))?;
        let name = line.split(' ').next()?.to_owned();
        let decimals = line.rsplit(' ').next()?.parse().unwrap_or(0);
        Some((name, decimals))
    });
    fields.collect()
}
