//! Guards of the must-fail edits: that those which `docs/PROMISES.md` names are there
//! and the others are named, that none is lost, that each fits the code, and that it
//! edits a function that it is listed for.

use std::collections::BTreeMap;

use crate::page::prose;
use crate::promises::{function_items, names_in, PAGE};
use crate::rattle::{all_functions, line_at, reached, with_helpers, Function};
use crate::repository::Repository;

/// How many edits each crate has, changed by hand.
pub const COUNTS: &str = ".ci/edits.txt";

/// An edit as the page names it.
struct Named {
    /// `crate/name`.
    edit: String,
    /// The function that a remark `(of NAME)` says it edits.
    of: Option<String>,
}

/// The edits in a list such as `a/b, c (of f), d/e`: a crate's name holds until the
/// next one. A remark alone is no edit.
fn named_in(list: &str) -> Vec<Named> {
    let mut crate_name = "";
    let mut named = Vec::new();
    for item in list.split(", ").map(str::trim) {
        let (name, remark) = item.split_once('(').unwrap_or((item, ""));
        let name = name.trim().trim_end_matches('.');
        if name.is_empty() {
            continue;
        }
        let (front, name) = name.split_once('/').unwrap_or((crate_name, name));
        crate_name = front;
        let of = remark
            .strip_prefix("of ")
            .map(|of| of.trim_matches(['`', ')']));
        named.push(Named {
            edit: format!("{front}/{name}"),
            of: of.map(str::to_owned),
        });
    }
    named
}

/// The edits that the page names: behind "Edits:", in a note or in a sentence.
fn all_named(repository: &Repository) -> Vec<String> {
    let sentences = prose(repository.text(PAGE)).filter_map(|line| line.split_once("Edits: "));
    let lists = sentences.map(|(_, rest)| rest.split(". ").next().unwrap_or(rest));
    let named = lists.flat_map(named_in);
    named.map(|named| named.edit).collect()
}

/// `crate/name` of every edit that there is.
fn all_there(repository: &Repository) -> Vec<String> {
    let files = repository.between("crates/", ".edit");
    let parts = files.map(|(path, _)| path.trim_end_matches(".edit").split('/'));
    let edits = parts.filter_map(|mut parts| {
        let crate_name = parts.nth(1)?;
        Some(format!("{crate_name}/{}", parts.next_back()?))
    });
    edits.collect()
}

/// Edits that are named and not there, or there and not named.
pub fn unnamed_or_lost(repository: &Repository) -> Vec<String> {
    let named = all_named(repository);
    let there = all_there(repository);
    let lost = named.iter().filter(|edit| !there.contains(edit));
    let lost = lost.map(|edit| format!("{PAGE} names the edit {edit}, which is not there"));
    let unnamed = there.iter().filter(|edit| !named.contains(edit));
    let unnamed = unnamed.map(|edit| format!("{PAGE} does not name the edit {edit}"));
    lost.chain(unnamed).collect()
}

/// Crates that do not have just as many edits as the file of counts says, or no line.
pub fn miscounted(repository: &Repository) -> Vec<String> {
    let mut written = BTreeMap::new();
    for line in repository.text(COUNTS).lines() {
        if let Some((name, count)) = line.split_once(' ').filter(|_| !line.starts_with('#')) {
            written.insert(name, count);
        }
    }
    let there = all_there(repository);
    let mut complaints = Vec::new();
    for name in repository.crates() {
        let front = format!("{name}/");
        let edits = there.iter().filter(|edit| edit.starts_with(&front)).count();
        match written.remove(name) {
            Some(count) if count == edits.to_string() => {}
            Some(count) => complaints.push(format!("{name}: {edits} edits, {COUNTS} has {count}")),
            None => complaints.push(format!("{name}: {edits} edits, and no line in {COUNTS}")),
        }
    }
    let others = written.keys();
    complaints
        .extend(others.map(|name| format!("{COUNTS} has a line of {name}, which is no crate")));
    complaints
}

/// One replacement of an edit: in which file of the repository, what by what.
struct Replacement<'a> {
    file: String,
    old: &'a str,
    new: &'a str,
}

/// The replacements of an edit. A line `file:` holds for all that follow it.
fn replacements<'a>(repository: &'a Repository, edit: &str) -> Vec<Replacement<'a>> {
    let (crate_name, name) = edit.split_once('/').unwrap_or((edit, ""));
    let text = repository.text(&format!("crates/{crate_name}/must-fail/{name}.edit"));
    let (mut file, mut old) = (String::new(), "");
    let mut replacements = Vec::new();
    for line in text.lines() {
        if let Some(path) = line.strip_prefix("file: ") {
            file = format!("crates/{crate_name}/{path}");
        } else if let Some(text) = line.strip_prefix("old: ") {
            old = text;
        } else if let Some(new) = line.strip_prefix("new:") {
            let new = new.strip_prefix(' ').unwrap_or(new);
            let file = file.clone();
            replacements.push(Replacement { file, old, new });
        }
    }
    replacements
}

/// Edits that change nothing, or whose text does not stand just once in the file.
pub fn unfit(repository: &Repository) -> Vec<String> {
    let there = all_there(repository);
    there
        .iter()
        .filter_map(|edit| why_unfit(repository, edit).map(|why| format!("{edit}: {why}")))
        .collect()
}

fn why_unfit(repository: &Repository, edit: &str) -> Option<String> {
    let replacements = replacements(repository, edit);
    let first = replacements.first().map_or("", |first| first.file.as_str());
    if !["src/", "specs/"].iter().any(|part| first.contains(part)) {
        return Some("it edits nothing of src/ or specs/".to_owned());
    }
    let mut edited: BTreeMap<&str, String> = BTreeMap::new();
    for Replacement { file, old, new } in &replacements {
        let text = edited
            .entry(file)
            .or_insert_with(|| repository.text(file).to_owned());
        let count = text.matches(old).count();
        if count != 1 {
            return Some(format!("`{old}` stands in {file} {count} times"));
        }
        if old == new {
            return Some(format!("it leaves `{old}` as it is"));
        }
        *text = text.replacen(old, new, 1);
    }
    None
}

/// Edits that an item names and that edit none of its functions, nor their helpers. What
/// is meant by another function's edit says so, `(of NAME)`, and one of the item's
/// functions has to call that one.
pub fn of_other_functions(repository: &Repository) -> Vec<String> {
    let all = all_functions(repository);
    let mut complaints = Vec::new();
    for item in function_items(repository) {
        let names = names_in(&item);
        let of_item = all.iter().filter(|function| is_one_of(function, &names));
        let of_item: Vec<&Function> = of_item.collect();
        for named in item.note("Edits").map(named_in).unwrap_or_default() {
            let edit = Edit {
                repository,
                all: &all,
                named,
            };
            let why = edit.why_of_others(&of_item);
            let about = format!("{} ({}): ", edit.named.edit, item.front);
            complaints.extend(why.map(|why| about + &why));
        }
    }
    complaints
}

fn is_one_of(function: &Function, names: &[String]) -> bool {
    function.is_public && names.iter().any(|name| function.is_named(name))
}

/// An edit that an item names.
struct Edit<'a> {
    repository: &'a Repository,
    all: &'a [Function],
    named: Named,
}

impl<'a> Edit<'a> {
    fn why_of_others(&self, of_item: &[&'a Function]) -> Option<String> {
        let replacements = replacements(self.repository, &self.named.edit);
        let edits_definition = |of: &Replacement| of.file.contains("/specs/");
        if replacements.is_empty() || replacements.iter().any(edits_definition) {
            return None;
        }
        let Some(of) = &self.named.of else {
            let functions = with_helpers(self.all, of_item);
            return self.why_not_in(&replacements, &functions);
        };
        let called = reached(self.all, of_item, |_, _| true);
        let of: Vec<&Function> = called.into_iter().filter(|one| one.is_named(of)).collect();
        if of.is_empty() {
            return Some("the item's functions do not call what it is of".to_owned());
        }
        let functions = with_helpers(self.all, &of);
        self.why_not_in(&replacements, &functions)
    }

    fn why_not_in(&self, edits: &[Replacement], functions: &[&Function]) -> Option<String> {
        let mut elsewhere = Vec::new();
        for edit in edits {
            match self.place(edit) {
                Place::In(function) if functions.iter().any(|one| one.path == function.path) => {
                    return None;
                }
                Place::Constant(name) if functions.iter().any(|one| one.words.contains(&name)) => {
                    return None;
                }
                Place::In(function) => elsewhere.push(function.path.clone()),
                Place::Constant(name) => elsewhere.push(name),
                Place::Elsewhere => {}
            }
        }
        match elsewhere.is_empty() {
            true => Some("it edits nothing of a function".to_owned()),
            false => Some(format!("it edits {}", elsewhere.join(", "))),
        }
    }

    fn place(&self, edit: &Replacement) -> Place<'a> {
        let text = self.repository.text(&edit.file);
        let Some(at) = text.find(edit.old) else {
            return Place::Elsewhere;
        };
        let blank = edit.old.len() - edit.old.trim_start().len();
        let line = line_at(text, at + blank);
        let mut all = self.all.iter();
        if let Some(function) = all.find(|function| function.has_line(&edit.file, line)) {
            return Place::In(function);
        }
        let whole = text.lines().nth(line - 1).unwrap_or("");
        match constant(whole) {
            Some(name) => Place::Constant(name.to_owned()),
            None => Place::Elsewhere,
        }
    }
}

/// Where a replacement stands.
enum Place<'a> {
    In(&'a Function),
    /// A constant outside all functions: its name.
    Constant(String),
    Elsewhere,
}

fn constant(line: &str) -> Option<&str> {
    let (_, rest) = line.split_once("const ")?;
    let (name, _) = rest.split_once(':')?;
    Some(name.trim())
}
