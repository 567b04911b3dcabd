//! Guards of `docs/RULES.md`: that each row has its cells, that the definitions,
//! functions, theorems, edits and tests that it names are there, and that no sentence of
//! the rules is lost from it.

use fervolatro::Reason;

use crate::page::{code_spans, rows, Row};
use crate::rattle::{all_functions, Function};
use crate::repository::Repository;
use crate::theorems::defines;

pub const PAGE: &str = "docs/RULES.md";

/// The columns that have the rules' own words, the change requests' and the guide's.
const RULES: &str = "01";
const REQUESTS: &str = "02";
const GUIDE: &str = "The guide";

/// The guide's lines, each of whose definitions some row names.
pub const GUIDE_LINES: &str = "crates/guide/specs/Guide.antt";

/// What the second cell of a row that states no rule begins with.
const NO_RULE: &str = "no rule: ";

/// What a row about all public functions says in the place of their names.
const ALL_FUNCTIONS: &str = "every public function";

/// The own words of the rules and of the requests that have landed, put end to end
/// without white space: how many letters and signs they are, and their fingerprint. Both
/// are changed by hand, where the rules change or a request lands.
const WORDS: [(&str, usize, u64); 2] = [
    (RULES, 9_626, 10_010_506_665_584_404_658),
    (REQUESTS, 3_282, 263_505_127_120_763_239),
];

/// Rows with a cell empty or with something in it that is not there.
pub fn unfounded(repository: &Repository) -> Vec<String> {
    let functions = all_functions(repository);
    let rows = rule_rows(repository);
    let complaints = rows.iter().flat_map(|row| {
        let about = format!("{PAGE}, \"{}\": ", row.first());
        let why = why_unfounded(repository, &functions, row);
        why.into_iter().map(move |why| format!("{about}{why}"))
    });
    complaints.collect()
}

/// The rows that have a sentence of the rules or of a request, or a formula of the guide.
pub fn rule_rows(repository: &Repository) -> Vec<Row> {
    let rows = rows(repository.text(PAGE)).into_iter();
    let columns = [RULES, REQUESTS, GUIDE];
    let is_rule = |row: &Row| columns.iter().any(|column| row.cell(column).is_some());
    rows.filter(is_rule).collect()
}

pub fn states_a_rule(row: &Row) -> bool {
    !row.cell("Definition")
        .is_some_and(|cell| cell.starts_with(NO_RULE))
}

fn why_unfounded(repository: &Repository, functions: &[Function], row: &Row) -> Vec<String> {
    if !states_a_rule(row) {
        return Vec::new();
    }
    let cell = |column| row.cell(column).unwrap_or("");
    let (definitions, done_by, shown_by) =
        (cell("Definition"), cell("Function"), cell("What shows it"));
    let mut why = Vec::new();
    for (column, cell) in [
        ("a sentence", row.first()),
        ("a definition", definitions),
        ("a function", done_by),
        ("anything that shows it", shown_by),
    ] {
        if cell.is_empty() || column != "a sentence" && cited(cell).is_empty() {
            let is_of_all = cell == ALL_FUNCTIONS;
            why.extend((!is_of_all).then(|| format!("it does not name {column}")));
        }
    }
    let definitions = cited(definitions).into_iter();
    why.extend(definitions.filter_map(|cited| cited.why_no_definition(repository)));
    let done_by = cited(done_by).into_iter();
    why.extend(done_by.filter_map(|cited| cited.why_no_function(functions)));
    let shown_by = cited(shown_by).into_iter();
    why.extend(shown_by.filter_map(|cited| cited.why_nothing_shown(repository)));
    why
}

/// What a cell names: `name`, or `name` (`path`).
#[derive(Debug)]
struct Cited<'a> {
    name: &'a str,
    path: Option<&'a str>,
}

fn cited(cell: &str) -> Vec<Cited<'_>> {
    let parts: Vec<&str> = cell.split('`').collect();
    let mut cited: Vec<Cited> = Vec::new();
    for (at, name) in (1..).step_by(2).zip(code_spans(cell)) {
        match cited.last_mut() {
            Some(last) if parts[at - 1] == " (" && parts[at + 1].starts_with(')') => {
                last.path = Some(name);
            }
            _ => cited.push(Cited { name, path: None }),
        }
    }
    cited
}

impl Cited<'_> {
    /// A definition is one of `specs/`; a page is cited by its path alone.
    fn why_no_definition(&self, repository: &Repository) -> Option<String> {
        match self.path {
            Some(path) if path.contains("/specs/") => self.why_undefined(repository, path),
            Some(path) => Some(format!("{path} is not of specs/")),
            None if repository.files.contains_key(self.name) => None,
            None => Some(format!("{} is said to stand nowhere", self.name)),
        }
    }

    fn why_undefined(&self, repository: &Repository, path: &str) -> Option<String> {
        let is_defined = defines(repository.text(path), self.name);
        (!is_defined).then(|| format!("{path} does not define {}", self.name))
    }

    fn why_no_function(&self, functions: &[Function]) -> Option<String> {
        let mut functions = functions.iter();
        let is_there = functions.any(|function| function.path == self.name);
        (!is_there).then(|| format!("there is no function {}", self.name))
    }

    /// A theorem of `proofs/`, a test or a must-fail edit.
    fn why_nothing_shown(&self, repository: &Repository) -> Option<String> {
        if let Some(path) = self.path {
            return match path.contains("/proofs/") {
                true => self.why_undefined(repository, path),
                false => Some(format!("{path} is not of proofs/")),
            };
        }
        if let Some((path, test)) = self.name.split_once(": ") {
            return why_no_test(repository.text(path), test).map(|why| format!("{path}: {why}"));
        }
        let (crate_name, edit) = self.name.split_once('/').unwrap_or((self.name, ""));
        let edit = format!("crates/{crate_name}/must-fail/{edit}.edit");
        let is_there = repository.files.contains_key(&edit);
        (!is_there).then(|| format!("there is no edit {}", self.name))
    }
}

/// Why a file has not this test: a function, or a table of cases, of which one may be
/// named, `TABLE, "case"`.
fn why_no_test(text: &str, test: &str) -> Option<String> {
    let (name, case) = match test.split_once(", ") {
        Some((name, case)) => (name, Some(case)),
        None => (test, None),
    };
    let Some(item) = item(text, name) else {
        return Some(format!("there is no test {name}"));
    };
    case.filter(|case| !item.contains(case))
        .map(|case| format!("{name} has no case {case}"))
}

/// A function or a constant of a Rust file, from the line that names it to the next line
/// that closes something and is not indented.
fn item<'a>(text: &'a str, name: &str) -> Option<&'a str> {
    let fronts = ["fn ", "const "].map(|front| format!("\n{front}{name}"));
    let ends_the_name = |at: &usize| {
        !text[*at..].starts_with(|letter: char| letter.is_alphanumeric() || letter == '_')
    };
    let mut starts = fronts.iter().flat_map(|front| {
        let found = text.match_indices(front.as_str());
        found.map(|(at, front)| at + front.len())
    });
    let start = starts.find(ends_the_name)?;
    let rest = &text[start..];
    let ends = ["\n}", "\n];", "\n\";"].into_iter();
    let end = ends.filter_map(|end| rest.find(end)).min();
    Some(&rest[..end.unwrap_or(rest.len())])
}

/// Definitions of the guide's lines that no row names.
pub fn of_no_rule(repository: &Repository) -> Vec<String> {
    let rows = rule_rows(repository);
    let cells = rows.iter().filter_map(|row| row.cell("Definition"));
    let named: Vec<Cited> = cells.flat_map(cited).collect();
    let is_named = |name: &str| {
        let mut named = named.iter();
        named.any(|cited| cited.name == name && cited.path == Some(GUIDE_LINES))
    };
    let lines = repository.text(GUIDE_LINES).lines();
    let public = lines.filter_map(|line| line.split_once("pub ")?.1.split_once(" :"));
    let names = public.map(|(name, _)| name);
    let unnamed = names.filter(|name| !name.contains(' ') && !is_named(name));
    unnamed
        .map(|name| format!("{PAGE} has no row for {name} of {GUIDE_LINES}"))
        .collect()
}

/// The documents whose sentences are no longer all there, as they were.
pub fn lost_words(repository: &Repository) -> Vec<String> {
    let rows = rule_rows(repository);
    let lost = WORDS.into_iter().filter_map(|(column, letters, print)| {
        let cells = rows.iter().filter_map(|row| row.cell(column));
        let words: String = cells.flat_map(str::split_whitespace).collect();
        let found = (words.chars().count(), fingerprint(&words));
        let said =
            format!("{PAGE} does not have the sentences of {column} as they were: {found:?}");
        (found != (letters, print)).then_some(said)
    });
    lost.collect()
}

/// Refusals for which the package for users has other words than the rules' table, or
/// than the request that brought them. What are "the rules above" there are the record's
/// own. Where a request gives other words to a number ("11 when .."), they stand further
/// down, and hold.
pub fn said_otherwise(repository: &Repository) -> Vec<String> {
    let rows = rule_rows(repository);
    let words_of = |reason: &Reason| {
        let in_the_table = format!("{} | ", reason.number());
        let in_a_request = format!("{} when ", reason.number());
        let mut said = rows.iter().filter_map(|row| {
            let cell = row.first();
            let requested = cell.strip_prefix("then ").unwrap_or(cell);
            let requested = requested.strip_prefix(&in_a_request);
            cell.strip_prefix(&in_the_table).or(requested)
        });
        let words = said.next_back()?.split(" | ").next()?;
        let words = words.trim_end_matches([',', ';', '.']);
        Some(words.replace("the rules above", "its rules"))
    };
    let is_said = |reason: &&Reason| match words_of(reason) {
        Some(words) => words == reason.words(),
        None => rows.iter().any(|row| is_requested(row, **reason)),
    };
    let other = Reason::ALL.iter().filter(|reason| !is_said(reason));
    other
        .map(|reason| format!("{reason:?}: {PAGE} does not say \"{reason}\""))
        .collect()
}

/// Whether a request's sentence brings the refusal, in its words: what it calls a row is
/// called a dispatch row outside of it, and this form the file's.
fn is_requested(row: &Row, reason: Reason) -> bool {
    let fronts = ["Refusals: ", "reading gives "];
    let brought = fronts.map(|front| format!("{front}{},", reason.number()));
    let words = reason.words().replace("a dispatch row", "row");
    let words = words.replace("the file's form", "this form");
    let is_brought = |cell: &str| brought.iter().any(|brought| cell.contains(brought));
    let cell = row.cell(REQUESTS);
    cell.is_some_and(|cell| is_brought(cell) && cell.contains(&words))
}

/// FNV-1a, of 64 bits.
fn fingerprint(text: &str) -> u64 {
    text.bytes().fold(0xcbf2_9ce4_8422_2325, |hash, byte| {
        (hash ^ u64::from(byte)).wrapping_mul(0x0100_0000_01b3)
    })
}
