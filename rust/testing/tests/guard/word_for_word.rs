//! The blocks of `docs/PROMISES.md` that have every public contract as it stands, each at
//! the end of its crate's section: of a function, a trait's method too, what it asks and
//! promises; of a type, a trait, and a type that has a trait, the ghost items.

use crate::ghosts::public_declarations;
use crate::rattle::{all_functions, first_part, Function};
use crate::repository::Repository;

pub const PAGE: &str = "docs/PROMISES.md";

/// What a block has of one function, type or trait.
pub struct Entry {
    pub path: String,
    pub text: String,
    /// The file, and the line in it.
    place: (String, usize),
}

/// The entries of all crates, as they follow each other in the code.
pub fn entries(repository: &Repository) -> Vec<Entry> {
    let functions = all_functions(repository).into_iter().filter(is_seen);
    let functions = functions.map(|function| Entry {
        text: entry(&function),
        path: function.path,
        place: (function.file, function.lines.0),
    });
    let declarations = public_declarations(repository).into_iter();
    let declarations = declarations.map(|declaration| Entry {
        text: with_clauses(declaration.path.clone(), &declaration.items),
        path: declaration.path,
        place: (declaration.file, declaration.lines.0),
    });
    let mut entries: Vec<Entry> = functions.chain(declarations).collect();
    entries.sort_by(|one, other| one.place.cmp(&other.place));
    entries
}

/// Whether other crates see the function: a type's by its trait, whose contract it has, and
/// so it has an entry only where it has clauses of its own.
fn is_seen(function: &Function) -> bool {
    let says_more = !function.clauses.is_empty();
    function.is_public || function.for_trait.is_some() && says_more
}

/// A function's entry: its name and signature, and each clause on a line.
fn entry(function: &Function) -> String {
    let front = [&function.path, &function.kinds, &function.signature];
    with_clauses(front.map(String::as_str).concat(), &function.clauses)
}

fn with_clauses(mut entry: String, clauses: &[String]) -> String {
    for clause in clauses {
        entry.push_str("\n    ");
        entry.push_str(clause);
    }
    entry
}

/// The page with the contracts as the code has them: all that stands before a section's
/// block is kept, and the block made anew.
pub fn renewed(repository: &Repository) -> String {
    let entries = entries(repository);
    let mut sections = repository.text(PAGE).split("\n## ");
    let mut page = sections.next().unwrap_or("").to_owned();
    for section in sections {
        let name = section.lines().next().unwrap_or("");
        let words = section.split("\n```").next().unwrap_or(section);
        page.push_str(&format!("\n## {}\n", words.trim_end()));
        let of_crate = entries.iter().filter(|one| first_part(&one.path) == name);
        let texts: Vec<&str> = of_crate.map(|one| one.text.as_str()).collect();
        if !texts.is_empty() {
            let texts = texts.join("\n");
            page.push_str(&format!("\n```\n{texts}\n```\n"));
        }
    }
    page
}
