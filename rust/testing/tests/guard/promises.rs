//! Guards of the public functions' promises: that each has one which says something,
//! that `docs/PROMISES.md` has a heading for each crate and the promise under it word for
//! word, and that an item there names the function and says what it asks. What types and
//! traits say by ghost items is held in the same way.

use crate::ghosts::{asking_types, public_declarations, Kind};
use crate::page::{code_spans, headings, items, prose, Item};
use crate::rattle::{first_part, is_word_letter, public_functions, Function};
use crate::repository::Repository;
pub use crate::word_for_word::PAGE;
use crate::word_for_word::{entries, renewed};

/// Public functions without a promise, or with one that says nothing.
pub fn empty_promises(repository: &Repository) -> Vec<String> {
    let functions = public_functions(repository);
    functions.iter().flat_map(missing_of).collect()
}

/// What is missing of one function's promise: it has to speak of the result, if there
/// is one, and of what each part that is lent to be written holds afterwards.
pub fn missing_of(function: &Function) -> Vec<String> {
    let path = &function.path;
    let promises: Vec<Promise> = function.ensures().map(Promise::of).collect();
    if promises.is_empty() {
        return vec![format!("{path} has no `ensures`")];
    }
    let mut missing = Vec::new();
    let empty = promises.iter().filter(|promise| promise.says_nothing());
    missing.extend(empty.map(|promise| format!("{path} promises nothing by `{}`", promise.body)));
    if function.signature.contains("->") && !promises.iter().any(Promise::names_result) {
        missing.push(format!("{path} promises nothing of its result"));
    }
    for name in lent_to_write(&function.signature) {
        let held = [format!("{name}.new"), format!("{name}.exit")];
        let speaks = |promise: &Promise| held.iter().any(|held| promise.names(held));
        if !promises.iter().any(speaks) {
            missing.push(format!(
                "{path} promises nothing of what `{name}` then holds"
            ));
        }
    }
    missing
}

/// The parameters of a signature that are lent to be written.
fn lent_to_write(signature: &str) -> Vec<&str> {
    let parameters = signature.split("->").next().unwrap_or(signature);
    let parameters = parameters.trim_matches(['(', ')', ' ']).split(", ");
    // `&mut self` has no name in front.
    let lent = parameters.map(|of| of.split_once(": ").unwrap_or(("self", of)));
    let lent = lent.filter(|(_, kind)| kind.starts_with('&') && kind.contains("mut "));
    lent.map(|(name, _)| name).collect()
}

/// `ensures { body }`, or `ensures name { body }`.
struct Promise<'a> {
    body: &'a str,
}

impl<'a> Promise<'a> {
    fn of(clause: &'a str) -> Self {
        let body = clause.split_once('{').map_or(clause, |(_, body)| body);
        let body = body.rsplit_once('}').map_or(body, |(body, _)| body);
        Promise { body: body.trim() }
    }

    fn names_result(&self) -> bool {
        self.names("result")
    }

    /// Whether a name stands in it by itself: no other name's part, and no field of another.
    fn names(&self, name: &str) -> bool {
        let is_of_name = |letter: char| is_word_letter(letter) || letter == '\'';
        let mut found = self.body.match_indices(name);
        found.any(|(at, _)| {
            let (before, after) = (&self.body[..at], &self.body[at + name.len()..]);
            !before.ends_with(|letter| is_of_name(letter) || letter == '.')
                && !after.starts_with(is_of_name)
        })
    }

    fn says_nothing(&self) -> bool {
        says_nothing(self.body)
    }
}

/// Whether one of the parts of a promise holds of anything: what always holds, or that
/// something is itself.
pub fn says_nothing(body: &str) -> bool {
    let body = without_outer_brackets(body);
    let parts = split_outside(body, " × ");
    if parts.len() > 1 {
        return parts.into_iter().any(says_nothing);
    }
    let conclusion = split_outside(body, " → ").pop().unwrap_or(body);
    let conclusion = without_outer_brackets(conclusion);
    let is_itself = |sign: &str| match split_outside(conclusion, sign)[..] {
        [left, right] => without_outer_brackets(left) == without_outer_brackets(right),
        _ => false,
    };
    ["⊤", "Unit", "𝟙", ""].contains(&conclusion) || is_itself(" ≡ ") || is_itself(" ≤ ")
}

/// The parts between a sign, where it stands in no bracket.
fn split_outside<'a>(text: &'a str, sign: &str) -> Vec<&'a str> {
    let mut parts = Vec::new();
    let (mut start, mut depth) = (0, 0_i32);
    for (at, letter) in text.char_indices() {
        depth += i32::from(letter == '(') - i32::from(letter == ')');
        if depth == 0 && text[at..].starts_with(sign) && at >= start {
            parts.push(text[start..at].trim());
            start = at + sign.len();
        }
    }
    parts.push(text[start..].trim());
    parts
}

fn without_outer_brackets(text: &str) -> &str {
    let text = text.trim();
    match text
        .strip_prefix('(')
        .and_then(|text| text.strip_suffix(')'))
    {
        Some(inner) if is_balanced(inner) => without_outer_brackets(inner),
        _ => text,
    }
}

fn is_balanced(text: &str) -> bool {
    let mut depth = 0_i32;
    let stays_inside = text.chars().all(|letter| {
        depth += i32::from(letter == '(') - i32::from(letter == ')');
        depth >= 0
    });
    stays_inside && depth == 0
}

/// Where the page's contracts and the code's differ.
pub fn differing_contracts(repository: &Repository) -> Vec<String> {
    let page = repository.text(PAGE);
    let written = written_entries(page);
    let entries = entries(repository);
    let mut differing = Vec::new();
    for entry in &entries {
        let path = &entry.path;
        let known = written.iter().filter(|known| path_in(known) == path);
        match known.collect::<Vec<_>>()[..] {
            [] => differing.push(format!("{path} has no contract in {PAGE}")),
            [known] if *known == entry.text => {}
            [_] => differing.push(format!("{path}: {PAGE} has another contract")),
            _ => differing.push(format!("{path} stands in {PAGE} twice")),
        }
    }
    for path in written.iter().map(|entry| path_in(entry)) {
        if !entries.iter().any(|entry| entry.path == path) {
            differing.push(format!(
                "{PAGE} has a contract of {path}, which is not public"
            ));
        }
    }
    if differing.is_empty() {
        differing.extend(printed_otherwise(page, &renewed(repository)));
    }
    differing
}

/// The first line of the page that is not as it would be printed.
fn printed_otherwise(page: &str, renewed: &str) -> Option<String> {
    let mut lines = page.lines().zip(renewed.lines());
    let other = lines.find(|(line, printed)| line != printed);
    let (line, _) = other.unwrap_or(("its end", ""));
    (page != renewed).then(|| format!("{PAGE} is not as it would be printed: {line}"))
}

/// The entries of the page's blocks: a line, and those further in that follow it.
fn written_entries(page: &str) -> Vec<String> {
    let blocks = page.split("```").skip(1).step_by(2);
    let mut entries: Vec<String> = Vec::new();
    for line in blocks.flat_map(str::lines).filter(|line| !line.is_empty()) {
        match entries.last_mut() {
            Some(entry) if line.starts_with(' ') => {
                entry.push('\n');
                entry.push_str(line);
            }
            _ => entries.push(line.to_owned()),
        }
    }
    entries
}

fn path_in(entry: &str) -> &str {
    entry.split(['(', '<', '\n']).next().unwrap_or(entry)
}

/// The page's headings have to be the crates, from the last that `crates.txt` lists to
/// the first, and a sentence has to stand under each.
pub fn headings_unlike_the_crates(repository: &Repository) -> Vec<String> {
    let page = repository.text(PAGE);
    let crates: Vec<&str> = repository.crates().into_iter().rev().collect();
    let headings = headings(page);
    let mut unlike = Vec::new();
    for name in &crates {
        match headings.iter().filter(|heading| *heading == name).count() {
            1 if has_sentence(page, name) => {}
            1 => unlike.push(format!("{PAGE} does not say what {name} promises")),
            count => unlike.push(format!("{PAGE} has {count} headings {name}")),
        }
    }
    let others = headings.iter().filter(|heading| !crates.contains(heading));
    unlike.extend(others.map(|heading| format!("{PAGE}: {heading} is no crate")));
    let mut pairs = headings.iter().zip(&crates);
    if let Some((heading, name)) = pairs.find(|(heading, name)| heading != name) {
        unlike.push(format!("{PAGE} has {heading} where {name} is to stand"));
    }
    unlike
}

/// Whether words stand under the heading, before any list or block.
fn has_sentence(page: &str, heading: &str) -> bool {
    let mut lines = page
        .lines()
        .skip_while(|line| line.strip_prefix("## ") != Some(heading));
    let first = lines.by_ref().skip(1).find(|line| !line.is_empty());
    first.is_some_and(|line| line.starts_with(char::is_alphabetic))
}

/// The items of the page that name functions.
pub fn function_items(repository: &Repository) -> Vec<Item<'_>> {
    let items = items(repository.text(PAGE)).into_iter();
    items.filter(|item| !names_in(item).is_empty()).collect()
}

/// The functions' names in an item's front: `a::b(x)` or `a::b, c`, which is `a::b` and
/// `a::c`.
pub fn names_in(item: &Item) -> Vec<String> {
    let spans = code_spans(item.front).into_iter();
    let spans = spans.filter(|span| !span.contains('/'));
    spans.flat_map(names_in_span).collect()
}

fn names_in_span(span: &str) -> Vec<String> {
    let bare = span.split('(').next().unwrap_or(span);
    let front = bare.split(", ").next().unwrap_or(bare).rsplit_once("::");
    let mut names = bare.split(", ");
    let first = names.next().map(str::to_owned);
    let others = names.map(|name| match front {
        Some((front, _)) => format!("{front}::{name}"),
        None => name.to_owned(),
    });
    first.into_iter().chain(others).collect()
}

/// Public functions that no item under their crate's heading names, and names of an item
/// that are not just one public function's of that crate.
pub fn functions_unnamed(repository: &Repository) -> Vec<String> {
    let functions = public_functions(repository);
    let mut is_named = vec![false; functions.len()];
    let mut unnamed = Vec::new();
    for item in function_items(repository) {
        for name in names_in(&item) {
            let meant = (0..functions.len()).filter(|&at| functions[at].is_named(&name));
            match meant.collect::<Vec<_>>()[..] {
                [] => unnamed.push(format!("{PAGE} names {name}, which is not public")),
                [at] if functions[at].crate_name() == item.heading => is_named[at] = true,
                [_] => unnamed.push(format!("{PAGE} names {name} under {}", item.heading)),
                _ => unnamed.push(format!("{PAGE} names {name}, which is not one function's")),
            }
        }
    }
    let functions = functions.iter().zip(is_named);
    let others = functions.filter(|(_, is_named)| !is_named);
    unnamed.extend(others.map(|(function, _)| format!("{PAGE} does not name {}", function.path)));
    unnamed
}

/// Items that ask nothing of the caller though one of their functions has a `requires` or
/// takes a value that itself says something, or ask something though none does.
pub fn asked_unlike_the_code(repository: &Repository) -> Vec<String> {
    let functions = public_functions(repository);
    let types = asking_types(repository);
    let mut unlike = Vec::new();
    for item in function_items(repository) {
        let names = names_in(&item);
        let is_meant = |function: &&Function| names.iter().any(|name| function.is_named(name));
        let mut meant = functions.iter().filter(is_meant);
        let asks = meant.any(|function| asks(function, &types));
        if (item.note("Asks") == Some("nothing")) == asks {
            unlike.push(format!("{PAGE} does not say what {} asks", item.front));
        }
    }
    unlike
}

/// Whether a caller has to show something: what a `requires` says, or what a value of one
/// of these types says that it hands over.
fn asks(function: &Function, types: &[String]) -> bool {
    let owner = function.owner.as_deref();
    let mut words = function.parameters().split(|sign| !is_word_letter(sign));
    let takes_one = words.any(|word| {
        let named = match word {
            "self" | "Self" => owner.unwrap_or(word),
            _ => word,
        };
        types.iter().any(|name| name == named)
    });
    takes_one || function.requires().next().is_some()
}

/// Types and traits that say something by ghost items, and that no words under their
/// crate's heading speak of: what a type has for a trait is told beside the trait.
pub fn types_unnamed(repository: &Repository) -> Vec<String> {
    let declared = public_declarations(repository).into_iter();
    let mut unnamed = Vec::new();
    for one in declared.filter(|one| one.kind != Kind::OfTrait) {
        let words = words_under(repository.text(PAGE), first_part(&one.path));
        let mut spans = words.iter().flat_map(|line| code_spans(line));
        let end = format!("::{}", one.name);
        if !spans.any(|span| span == one.name || span.ends_with(&end)) {
            unnamed.push(format!("{PAGE} does not tell of {}", one.path));
        }
    }
    unnamed
}

/// The lines of prose under a heading.
fn words_under<'a>(page: &'a str, heading: &str) -> Vec<&'a str> {
    let section = prose(page).skip_while(|line| line.strip_prefix("## ") != Some(heading));
    let section = section.skip(1);
    section
        .take_while(|line| !line.starts_with("## "))
        .collect()
}
