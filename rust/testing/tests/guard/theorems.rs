//! Guards of the theorems: that README's table names one for each demand, that each
//! stands where the table says, and that the demands' files have no other.

use std::collections::BTreeSet;

use crate::page::{code_spans, rows};
use crate::promises::says_nothing;
use crate::repository::Repository;

const PAGE: &str = "README.md";
const FOLDER: &str = "crates/demands/proofs/";
const DEMANDS: [char; 3] = ['1', '2', '3'];

/// A theorem that README's table names: `| demand | theorem | file |`.
pub struct Named {
    demand: Option<char>,
    pub theorem: String,
    pub file: String,
}

pub fn named(repository: &Repository) -> Vec<Named> {
    let mut named = Vec::new();
    for row in rows(repository.text(PAGE)) {
        let [demand, theorems, file, ..] = &row.cells[..] else {
            continue;
        };
        let files = code_spans(file);
        let Some(file) = files.iter().find(|file| file.ends_with(".antt")) else {
            continue;
        };
        named.extend(code_spans(theorems).into_iter().map(|theorem| Named {
            demand: demand.chars().find(char::is_ascii_digit),
            theorem: theorem.to_owned(),
            file: (*file).to_owned(),
        }));
    }
    named
}

/// The theorems that a file states for others, `pub name : statement`.
fn stated(text: &str) -> impl Iterator<Item = (&str, &str)> {
    let lines = text.lines().map(str::trim_start);
    let public = lines.filter_map(|line| line.strip_prefix("pub "));
    let stated = public.filter_map(|line| line.split_once(" :"));
    stated.filter(|(name, _)| !name.contains(' '))
}

/// Demands without a theorem, theorems that are not where README has them or state
/// nothing, theorems of a demand's own file that README does not name.
pub fn missing(repository: &Repository) -> Vec<String> {
    let named = named(repository);
    let mut missing = Vec::new();
    for demand in DEMANDS {
        if !named.iter().any(|named| named.demand == Some(demand)) {
            missing.push(format!("{PAGE} names no theorem of demand {demand}"));
        }
    }
    missing.extend(
        named
            .iter()
            .filter_map(|named| why_missing(repository, named)),
    );
    let known: BTreeSet<&str> = named.iter().map(|named| named.theorem.as_str()).collect();
    for (file, text) in repository.between(&format!("{FOLDER}Demand"), ".antt") {
        let unnamed = stated(text).filter(|(name, _)| !known.contains(name));
        missing.extend(unnamed.map(|(name, _)| format!("{PAGE} does not name {name} of {file}")));
    }
    missing
}

fn why_missing(repository: &Repository, named: &Named) -> Option<String> {
    let Named { theorem, file, .. } = named;
    let mut stated = stated(repository.text(file));
    match stated.find(|(name, _)| name == theorem) {
        _ if !file.starts_with(FOLDER) => Some(format!("{theorem} is not of {FOLDER}")),
        None => Some(format!("{theorem} does not stand in {file}")),
        // A statement may begin on the next line.
        Some((_, statement)) if statement.trim().is_empty() => None,
        Some((_, statement)) => {
            says_nothing(statement).then(|| format!("{theorem} of {file} states nothing"))
        }
    }
}

/// A file of antt that a page cites, and what it is said to define: `name` (`path`).
pub struct Cited<'a> {
    pub path: &'a str,
    said: Option<&'a str>,
}

pub fn cited<'a>(repository: &'a Repository, page: &str) -> Vec<Cited<'a>> {
    let parts: Vec<&str> = repository.text(page).split('`').collect();
    let spans = (3..parts.len()).step_by(2);
    let cited = spans.map(|at| Cited {
        path: parts[at],
        said: Some(parts[at - 2]).filter(|_| parts[at - 1] == " ("),
    });
    let is_file = |path: &str| path.starts_with("crates/") && path.ends_with(".antt");
    let files = cited.filter(|cited| is_file(cited.path) && !cited.path.contains('*'));
    files.collect()
}

/// Files that a page cites and that are not there, or do not define what it says.
pub fn undefined(repository: &Repository, page: &str) -> Vec<String> {
    let mut undefined = Vec::new();
    for Cited { path, said } in cited(repository, page) {
        let Some(text) = repository.files.get(path) else {
            undefined.push(format!("{page} names {path}, which is not there"));
            continue;
        };
        let defines_any = |said: &str| said.split([' ', '(', ')']).any(|word| defines(text, word));
        if let Some(said) = said.filter(|said| !defines_any(said)) {
            undefined.push(format!("{path} does not define {said}, as {page} has it"));
        }
    }
    undefined
}

/// Whether a line of the file states the name's type, or declares it as a record or by
/// its cases.
pub fn defines(text: &str, name: &str) -> bool {
    let before = ["pub", "abbrev", "unfoldable", "record", "data"];
    text.lines().any(|line| {
        let mut words = line
            .split_whitespace()
            .skip_while(|word| before.contains(word));
        let is_named = words.next() == Some(name);
        let is_declared = ["record ", "data "].iter().any(|kind| line.contains(kind));
        is_named && (words.next() == Some(":") || is_declared)
    })
}
