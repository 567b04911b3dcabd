//! `crates.txt`: a crate lists the crates that it names, and no other.

use crate::repository::Repository;

/// Listed and not named: their types are met through another crate's, and the check
/// wants them all the same.
const MET_THROUGH_OTHERS: [(&str, &str); 3] = [
    ("fervolatro", "sections"),
    ("fervolatro", "nmas"),
    ("nmas_reading", "decimal_reading"),
];

pub fn unused(repository: &Repository) -> Vec<String> {
    let mut complaints = Vec::new();
    for (name, uses) in repository.listed() {
        let texts = texts_of(repository, name);
        for used in uses.split_whitespace() {
            let is_named = texts.iter().any(|text| names(text, used));
            if !is_named && !MET_THROUGH_OTHERS.contains(&(name, used)) {
                complaints.push(format!("{name} lists {used} and does not name it"));
            }
        }
    }
    complaints
}

/// The code, the definitions and the proofs of a crate.
fn texts_of<'a>(repository: &'a Repository, name: &str) -> Vec<&'a str> {
    let mut texts = Vec::new();
    for part in ["src", "specs", "proofs"] {
        let front = format!("crates/{name}/{part}/");
        let files = repository.files.iter();
        let own = files.filter(|(path, _)| path.starts_with(&front));
        texts.extend(own.map(|(_, text)| &**text));
    }
    texts
}

/// Whether a text names a crate, outside comments: `Rattle.NAME.`, `NAME::` or `use NAME;`.
fn names(text: &str, name: &str) -> bool {
    let facade = format!("Rattle.{name}.");
    let path = format!("{name}::");
    let import = format!("use {name};");
    text.lines().any(|line| {
        let code = line.split("//").next().unwrap_or(line);
        code.contains(&facade) || code.trim() == import || begins_a_path(code, &path)
    })
}

/// Whether a path stands in a line from its first name on.
fn begins_a_path(line: &str, path: &str) -> bool {
    line.match_indices(path).any(|(at, _)| {
        let before = line[..at].chars().next_back();
        !before.is_some_and(|letter| letter.is_alphanumeric() || "_:.".contains(letter))
    })
}
