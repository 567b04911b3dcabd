//! What could be lost, taken from the files in memory, one thing at a time: each has to
//! bring a complaint about it that was not there before.

use std::rc::Rc;

use crate::columns;
use crate::constants;
use crate::dependencies;
use crate::edge;
use crate::edits;
use crate::ghosts::{all_declarations, public_declarations, Declaration};
use crate::layout;
use crate::page;
use crate::promises;
use crate::rattle::{all_functions, first_part, public_functions, Function};
use crate::repository::Repository;
use crate::rules;
use crate::stack;
use crate::strays;
use crate::theorems;
use crate::word_for_word::entries;

type Guard = fn(&Repository) -> Vec<String>;

/// A guard over the files as they are, and what it then complains of.
struct Watch<'a> {
    repository: &'a Repository,
    guard: Guard,
    before: Vec<String>,
}

impl<'a> Watch<'a> {
    fn over(repository: &'a Repository, guard: Guard) -> Self {
        let before = guard(repository);
        Watch {
            repository,
            guard,
            before,
        }
    }

    /// Asserts that the guard complains about the thing after the change, and did not
    /// before.
    fn notices(&self, about: &str, change: impl FnOnce(&mut Repository)) {
        let mut changed = self.repository.clone();
        change(&mut changed);
        let after = (self.guard)(&changed);
        let mut new = after.iter().filter(|said| !self.before.contains(said));
        assert!(
            new.any(|said| said.contains(about)),
            "nothing was said of {about}: {after:?}"
        );
    }
}

fn assert_quiet(guard: Guard, repository: &Repository) {
    let complaints = guard(repository);
    assert!(complaints.is_empty(), "{complaints:?}");
}

/// Files of the given texts.
fn repository_of(files: &[(&str, &str)]) -> Repository {
    let files = files
        .iter()
        .map(|&(path, text)| (path.to_owned(), Rc::from(text)));
    Repository {
        files: files.collect(),
    }
}

/// Gives a file that is there another text.
fn rewrite(repository: &mut Repository, path: &str, text: impl FnOnce(&str) -> String) {
    let file = repository.files.get_mut(path);
    let file = file.unwrap_or_else(|| panic!("{path} is not there"));
    *file = Rc::from(text(file));
}

/// Replaces the one place of a file that has this text.
fn replace(repository: &mut Repository, path: &str, old: &str, new: &str) {
    rewrite(repository, path, |text| {
        assert_eq!(text.matches(old).count(), 1, "{old} in {path}");
        text.replace(old, new)
    });
}

fn append(repository: &mut Repository, path: &str, end: &str) {
    rewrite(repository, path, |text| text.to_owned() + end);
}

/// Changes each `ensures` of a function; where `change` gives nothing, it goes.
fn change_promise(
    repository: &mut Repository,
    function: &Function,
    change: impl Fn(&str) -> Option<String>,
) {
    let (first, last) = function.lines;
    rewrite(repository, &function.file, |text| {
        let changed = (1..).zip(text.lines()).filter_map(|(number, line)| {
            let is_promise = line.trim_start().starts_with("ensures");
            match is_promise && (first..=last).contains(&number) {
                true => ended_as(line, change(line)),
                false => Some(line.to_owned()),
            }
        });
        changed.map(|line| line + "\n").collect()
    });
}

/// A method that a trait declares ends in a semicolon, behind its last clause: this stays.
fn ended_as(line: &str, changed: Option<String>) -> Option<String> {
    match line.ends_with(';') {
        true => Some(changed.unwrap_or_default().trim_end_matches(';').to_owned() + ";"),
        false => changed,
    }
}

/// Has a guard notice a change of the promise of each public function.
fn notices_of_each(guard: Guard, change: impl Fn(&str) -> Option<String>) {
    let repository = Repository::read();
    let watch = Watch::over(&repository, guard);
    for function in public_functions(&repository) {
        watch.notices(&function.path, |changed| {
            change_promise(changed, &function, &change);
        });
    }
}

/// How many methods the public traits of a file declare.
fn methods_of_traits(text: &str) -> usize {
    let mut is_in_trait = false;
    let methods = text.lines().filter(|line| {
        is_in_trait = line.starts_with("pub trait ") || is_in_trait && *line != "}";
        is_in_trait && line.trim_start().starts_with("fn ")
    });
    methods.count()
}

/// The guards' own reading of the code misses none: each line that begins a public
/// function is one, or a method of a public trait, and each that begins a clause is one of
/// a function's.
#[test]
fn every_public_function_is_read() {
    let repository = Repository::read();
    let code = repository.between("crates/", ".rt");
    let methods: usize = code.map(|(_, text)| methods_of_traits(text)).sum();
    assert!(methods >= 5, "the traits have {methods} methods");
    let code = repository.between("crates/", ".rt");
    let lines = code.flat_map(|(_, text)| text.lines()).map(str::trim_start);
    let starts = lines.filter(|line| line.starts_with("pub ") && line.contains("fn "));
    assert_eq!(
        public_functions(&repository).len(),
        starts.count() + methods
    );
    let begins_a_clause = |line: &&str| {
        let words = ["requires", "ensures"];
        words.contains(&line.split(' ').next().unwrap_or(line))
    };
    let code = repository.between("crates/", ".rt");
    let lines = code.flat_map(|(_, text)| text.lines()).map(str::trim_start);
    let clauses = lines.filter(begins_a_clause).count();
    let functions = all_functions(&repository).into_iter();
    let read = functions.flat_map(|function| function.clauses);
    assert_eq!(read.count(), clauses);
}

fn begins_a_ghost_item(line: &str) -> bool {
    let line = line.trim_start();
    let fronts = ["pub ", "pub(crate) "];
    let bare = fronts.iter().find_map(|front| line.strip_prefix(front));
    let bare = bare.unwrap_or(line);
    bare.starts_with("ghost ") && !bare.starts_with("ghost use ")
}

/// Nor does it miss a ghost item: each line that begins one has one.
#[test]
fn every_ghost_item_is_read() {
    let repository = Repository::read();
    let code = repository.between("crates/", ".rt");
    let lines = code.flat_map(|(_, text)| text.lines());
    let lines = lines.filter(|line| begins_a_ghost_item(line)).count();
    let declarations = all_declarations(&repository);
    let read: usize = declarations.iter().map(|one| one.items.len()).sum();
    assert_eq!(read, lines);
    assert!(lines >= 45, "the code has {lines}");
}

/// The numbers of a declaration's lines that begin a ghost item.
fn ghost_lines(repository: &Repository, declaration: &Declaration) -> Vec<usize> {
    let (first, last) = declaration.lines;
    let lines = (1..).zip(repository.text(&declaration.file).lines());
    let lines =
        lines.filter(|(number, line)| (first..=last).contains(number) && begins_a_ghost_item(line));
    lines.map(|(number, _)| number).collect()
}

/// Has the guard of the contracts notice a change of each ghost item that other crates
/// see; where `change` gives nothing, it goes.
fn notices_of_each_ghost(change: impl Fn(&str) -> Option<String>) {
    let repository = Repository::read();
    let watch = Watch::over(&repository, promises::differing_contracts);
    for declaration in public_declarations(&repository) {
        let lines = ghost_lines(&repository, &declaration);
        assert_eq!(lines.len(), declaration.items.len());
        for number in lines {
            watch.notices(&declaration.path, |changed| {
                rewrite(changed, &declaration.file, |text| {
                    let lines = (1..).zip(text.lines()).filter_map(|(at, line)| match at {
                        at if at == number => change(line),
                        _ => Some(line.to_owned()),
                    });
                    lines.map(|line| line + "\n").collect()
                });
            });
        }
    }
}

#[test]
fn a_ghost_item_that_is_another_is_noticed() {
    notices_of_each_ghost(|line| Some(line.replacen("{ ", "{ 0 ≡ 1 → ", 1)));
}

#[test]
fn a_ghost_item_that_is_gone_is_noticed() {
    notices_of_each_ghost(|_| None);
}

#[test]
fn a_ghost_item_that_is_new_is_noticed() {
    notices_of_each_ghost(|line| {
        let end = line.chars().last().expect("it has a last sign");
        Some(format!("    ghost never: {{ 0 ≡ 1 }}{end}\n{line}"))
    });
}

/// A file, what stands there, what is put in its place, and what is then complained of: a
/// book that is laid, and a book's energies, that ask more or say less; a kind of record,
/// and what becomes of a field, of which less is promised.
const SAID_OTHERWISE: [[&str; 4]; 8] = [
    [
        "crates/book/src/laid.rt",
        "{ Laid bytes.now header }",
        "{ Laid bytes.now header × (0 < header.units) }",
        "book::laid::LaidBook: ",
    ],
    [
        "crates/book/src/laid.rt",
        "    pub ghost laid: { Laid bytes.now header },\n",
        "",
        "a contract of book::laid::LaidBook,",
    ],
    [
        "crates/accounts/src/energies.rt",
        " by { Prim.hlevel props },\n    pub ghost sound: { EnergiesSound (energies_in bytes.now part) }",
        "",
        "accounts::energies::BookEnergies: ",
    ],
    [
        "crates/rules/src/fields.rt",
        "{ result ≡ ok self }",
        "{ result ≡ true → ok self ≡ true }",
        "rules::fields::Ruled::ok: ",
    ],
    [
        "crates/rules/src/fields.rt",
        "{ SIZE ≤ 64 }",
        "{ SIZE ≤ 65 }",
        "rules::fields::Ruled: ",
    ],
    [
        "crates/rules/src/fields.rt",
        "ghost ok = { entry_ok };",
        "ghost ok = { any_entry };",
        "rules::fields::Ruled for Entry: ",
    ],
    [
        "crates/rules/src/order.rt",
        "fn below(self, next: UnitRow) -> bool {",
        "fn below(self, next: UnitRow) -> bool\n        requires { 0 ≡ 1 }\n    {",
        "rules::order::UnitRow::below has no contract",
    ],
    [
        "crates/nmas/src/lib.rt",
        "ghost puts = { Wrote };",
        "ghost puts = { WroteOrNot };",
        "nmas::Puts for Written: ",
    ],
];

#[test]
fn a_type_or_a_trait_that_says_otherwise_is_noticed() {
    let repository = Repository::read();
    let watch = Watch::over(&repository, promises::differing_contracts);
    for [path, old, new, about] in SAID_OTHERWISE {
        watch.notices(about, |changed| replace(changed, path, old, new));
    }
}

/// A type that has said nothing, and what a further type has for a trait.
#[test]
fn a_type_that_begins_to_say_something_is_noticed() {
    let repository = Repository::read();
    let header = "crates/book/src/header.rt";
    let guards: [(Guard, &str); 3] = [
        (promises::differing_contracts, "book::header::Header has no"),
        (promises::types_unnamed, "tell of book::header::Header"),
        (
            promises::asked_unlike_the_code,
            "`book::header::Header::units_at",
        ),
    ];
    for (guard, about) in guards {
        Watch::over(&repository, guard).notices(about, |changed| {
            let (old, new) = (
                "pub struct Header {\n",
                "    pub ghost few: { Few units },\n",
            );
            replace(changed, header, old, &format!("{old}{new}"));
        });
    }
    let contracts = Watch::over(&repository, promises::differing_contracts);
    contracts.notices("recovery::kinds::Factored for Contract has no", |changed| {
        let further = "\nimpl Factored for Contract {\n    ghost factors = { none };\n}\n";
        append(changed, "crates/recovery/src/kinds.rt", further);
    });
}

#[test]
fn a_type_that_no_words_tell_of_is_noticed() {
    let repository = Repository::read();
    let watch = Watch::over(&repository, promises::types_unnamed);
    for path in [
        "book::laid::LaidBook",
        "accounts::energies::BookEnergies",
        "lines::portion::Portion",
        "nmas::Puts",
        "recovery::kinds::Factored",
        "rules::fields::Ruled",
        "rules::order::Ordered",
    ] {
        let name = path.rsplit("::").next().expect("it has a last part");
        watch.notices(path, |changed| {
            rewrite(changed, promises::PAGE, |page| {
                let page = page.replace(&format!("::{name}`"), "`");
                page.replace(&format!("`{name}`"), "it")
            });
        });
    }
}

#[test]
fn a_promise_that_is_removed_is_noticed() {
    notices_of_each(promises::empty_promises, |_| None);
}

#[test]
fn a_contract_that_is_removed_is_noticed() {
    notices_of_each(promises::differing_contracts, |_| None);
}

/// `fervolatro_balance` answered with anything at all.
#[test]
fn the_balance_without_its_promise_is_noticed() {
    let repository = Repository::read();
    let mut functions = public_functions(&repository).into_iter();
    let balance = functions.find(|function| function.is_named("fervolatro_balance"));
    let balance = balance.expect("the library has it");
    for guard in [promises::empty_promises, promises::differing_contracts] {
        Watch::over(&repository, guard).notices("fervolatro_balance", |changed| {
            change_promise(changed, &balance, |_| None);
        });
    }
}

#[test]
fn a_promise_that_says_nothing_is_noticed() {
    let repository = Repository::read();
    let empty = [
        "result ≡ result",
        "(result ≡ result)",
        "result ≡ (result)",
        "⊤",
        "Unit",
        "0 ≡ 0",
        "0 ≡ 1 → result ≡ result",
        "(result ≡ 0) × (result ≡ result)",
        "0 ≡ 1",
        "book.old ≡ book.new",
    ];
    for function in public_functions(&repository) {
        for promise in empty.iter().filter(|_| function.signature.contains("->")) {
            let mut changed = repository.clone();
            let line = format!("    ensures {{ {promise} }}");
            change_promise(&mut changed, &function, |_| Some(line.clone()));
            let complaints = promises::missing_of(&again(&changed, &function));
            assert!(!complaints.is_empty(), "{promise} of {}", function.path);
        }
    }
}

/// The same function as the changed file has it.
fn again(repository: &Repository, function: &Function) -> Function {
    let files = [(function.file.as_str(), repository.text(&function.file))];
    let mut functions = public_functions(&repository_of(&files)).into_iter();
    let same = functions.find(|other| other.path == function.path);
    same.expect("the function is still there")
}

#[test]
fn a_buffer_that_no_promise_speaks_of_is_noticed() {
    let repository = Repository::read();
    let watch = Watch::over(&repository, promises::empty_promises);
    let functions = public_functions(&repository).into_iter();
    for function in functions.filter(|function| function.signature.contains("&mut")) {
        watch.notices(&function.path, |changed| {
            let forget = |line: &str| {
                let line = line.replace(".new", ".old");
                Some(line.replace(".exit", ".entry"))
            };
            change_promise(changed, &function, forget);
        });
    }
}

#[test]
fn a_changed_promise_is_noticed() {
    notices_of_each(promises::differing_contracts, |line| {
        Some(line.replacen("{ ", "{ 0 ≡ 1 → ", 1))
    });
}

/// Which narrows what a function promises for.
#[test]
fn a_requires_more_is_noticed() {
    notices_of_each(promises::differing_contracts, |line| {
        Some(format!("    requires never {{ 0 ≡ 1 }}\n{line}"))
    });
}

#[test]
fn a_new_public_function_is_noticed() {
    let repository = Repository::read();
    let guards: [Guard; 3] = [
        promises::empty_promises,
        promises::differing_contracts,
        promises::functions_unnamed,
    ];
    for guard in guards {
        Watch::over(&repository, guard).notices("calendar::is_leap_day", |changed| {
            let function = "\npub fn is_leap_day(date: u32) -> bool {\n    date == 0\n}\n";
            append(changed, "crates/calendar/src/lib.rt", function);
        });
    }
}

#[test]
fn a_public_function_that_is_no_longer_there_is_noticed() {
    let repository = Repository::read();
    let guards: [Guard; 2] = [promises::differing_contracts, promises::functions_unnamed];
    for guard in guards {
        Watch::over(&repository, guard).notices("fervolatro_balance", |changed| {
            let path = "crates/fervolatro/src/lib.rt";
            replace(changed, path, "fn fervolatro_balance", "fn fervolatro_sum");
        });
    }
}

/// Changes the page of the promises from a text, which stands there once, to another.
fn on_the_page(old: &str, new: &str) -> impl Fn(&mut Repository) {
    let [old, new] = [old, new].map(str::to_owned);
    move |changed| replace(changed, promises::PAGE, &old, &new)
}

/// What a crate's line of `crates.txt` begins with, and the end of the line before it.
fn line_of(repository: &Repository, name: &str) -> String {
    let fronts = [":", " staticlib:"].map(|end| format!("\n{name}{end}"));
    let mut fronts = fronts.into_iter();
    let front = fronts.find(|front| repository.text("crates.txt").contains(front));
    front.expect("each crate has a line")
}

#[test]
fn a_heading_that_is_lost_is_noticed() {
    let repository = Repository::read();
    let watch = Watch::over(&repository, promises::headings_unlike_the_crates);
    for name in repository.crates() {
        let heading = format!("\n## {name}\n\n");
        for other in [
            "\n",
            "\n## nothing\n\n",
            &format!("{heading}It.\n{heading}"),
        ] {
            watch.notices(name, on_the_page(&heading, other));
        }
        watch.notices("nothing", on_the_page(&heading, "\n## nothing\n\n"));
        let unsaid = format!("{heading}- ");
        watch.notices(
            &format!("what {name} promises"),
            on_the_page(&heading, &unsaid),
        );
        watch.notices("newcrate", |changed| {
            let line = line_of(&repository, name);
            replace(changed, "crates.txt", &line, &format!("\nnewcrate:{line}"));
        });
    }
    watch.notices("sharing where walk", |changed| {
        for (old, new) in [("walk", "one"), ("sharing", "walk"), ("one", "sharing")] {
            let [old, new] = [old, new].map(|name| format!("\n## {name}\n"));
            replace(changed, promises::PAGE, &old, &new);
        }
    });
}

#[test]
fn a_dependency_that_nothing_uses_is_noticed() {
    let repository = Repository::read();
    let watch = Watch::over(&repository, dependencies::unused);
    watch.notices("amounts lists calendar", |changed| {
        replace(changed, "crates.txt", "\namounts: ", "\namounts: calendar ");
    });
    let commented = "// calendar::is_date says it\n";
    watch.notices("amounts lists calendar", |changed| {
        replace(changed, "crates.txt", "\namounts: ", "\namounts: calendar ");
        let path = "crates/amounts/src/lib.rt".to_owned();
        changed.files.insert(path, Rc::from(commented));
    });
}

/// In the page, and not in the code.
#[test]
fn a_contract_that_the_page_has_otherwise_is_noticed() {
    let repository = Repository::read();
    let watch = Watch::over(&repository, promises::differing_contracts);
    let entries = entries(&repository);
    for entry in &entries {
        let text = format!("\n{}\n", entry.text);
        watch.notices(&entry.path, on_the_page(&text, "\n"));
    }
    let heading = "\n## ground\n";
    for path in [
        "asked::check",
        "book::laid::LaidBook",
        "nmas::Puts for Written",
    ] {
        let mut entries = entries.iter();
        let entry = entries.find(|entry| entry.path == path);
        let text = &entry.expect("it has an entry").text;
        let weaker = text.lines().next().expect("it has a first line");
        watch.notices(path, on_the_page(text, weaker));
        watch.notices(path, on_the_page(text, &format!("{text}\n{text}")));
        assert_ne!(first_part(path), "ground");
        watch.notices("not as it would be printed", |changed| {
            replace(changed, promises::PAGE, &format!("\n{text}\n"), "\n");
            let moved = format!("{heading}\n```\n{text}\n```\n");
            replace(changed, promises::PAGE, heading, &moved);
        });
    }
    let behind = format!("\nWords behind a block.\n{heading}");
    watch.notices("Words behind a block", on_the_page(heading, &behind));
    watch.notices("its end", |changed| {
        append(changed, promises::PAGE, "Words.\n")
    });
}

#[test]
fn a_function_that_the_page_no_longer_names_is_noticed() {
    let repository = Repository::read();
    let watch = Watch::over(&repository, promises::functions_unnamed);
    for item in promises::function_items(&repository) {
        for name in promises::names_in(&item) {
            // What it says may begin with a definition of the same name.
            let front = format!("\n- {}: ", item.front);
            watch.notices(&name, on_the_page(&front, "\n- It is "));
            let heading = format!("\n## {}\n", item.heading);
            let other = on_the_page(&heading, "\n## another\n");
            watch.notices(&format!("{name} under another"), other);
        }
    }
}

#[test]
fn an_item_that_no_longer_says_what_is_asked_is_noticed() {
    let repository = Repository::read();
    let watch = Watch::over(&repository, promises::asked_unlike_the_code);
    for item in promises::function_items(&repository) {
        let asks = match item.note("Asks") {
            Some("nothing") => "something",
            _ => "nothing",
        };
        watch.notices(item.front, |changed| have_it_ask(changed, &item, asks));
    }
}

/// Has an item of the page say that its functions ask this.
fn have_it_ask(repository: &mut Repository, item: &page::Item, asks: &str) {
    let front = format!("\n- {}: ", item.front);
    rewrite(repository, promises::PAGE, |page| {
        let at = page.find(&front).expect("it has the item");
        let (before, rest) = page.split_at(at);
        let asks = format!("  - Asks: {asks}\n  - ");
        before.to_owned() + &rest.replacen("  - Asks:", &asks, 1)
    });
}

/// Of functions without a `requires`, which ask by a type alone: of a book that is laid,
/// lent or their own, and of a book's energies.
#[test]
fn a_type_that_asks_and_is_not_told_is_noticed() {
    let repository = Repository::read();
    let watch = Watch::over(&repository, promises::asked_unlike_the_code);
    let functions = public_functions(&repository);
    let items = promises::function_items(&repository);
    for name in [
        "passes::none_refuses",
        "checks::one_by_one",
        "verdict::settles_tests",
        "book::laid::LaidBook::entries",
        "accounts::own_energy",
    ] {
        let mut functions = functions.iter();
        let function = functions.find(|function| function.path == name);
        let function = function.expect("it is public");
        assert_eq!(function.requires().count(), 0, "{name}");
        let names = |item: &&page::Item| promises::names_in(item).contains(&name.to_owned());
        let item = items.iter().find(names).expect("it has an item");
        watch.notices(item.front, |changed| have_it_ask(changed, item, "nothing"));
    }
}

#[test]
fn an_edit_that_the_page_no_longer_names_is_noticed() {
    let repository = Repository::read();
    let watch = Watch::over(&repository, edits::unnamed_or_lost);
    for [_, crate_name, name] in edit_files(&repository) {
        let about = format!("does not name the edit {crate_name}/{name}");
        watch.notices(&about, |changed| {
            rewrite(changed, promises::PAGE, |page| {
                let lines = page.lines().map(|line| match line.split_once("Edits: ") {
                    Some((front, list)) => format!("{front}Edits: {}", list.replace(&name, "")),
                    None => line.to_owned(),
                });
                lines.map(|line| line + "\n").collect()
            });
        });
    }
}

/// Path, crate and name of each edit.
fn edit_files(repository: &Repository) -> Vec<[String; 3]> {
    let files = repository.between("crates/", ".edit");
    let named = files.map(|(path, _)| {
        let parts: Vec<&str> = path.trim_end_matches(".edit").split('/').collect();
        let [_, crate_name, _, name] = parts[..] else {
            panic!("{path} is no edit of a crate");
        };
        [path, crate_name, name].map(str::to_owned)
    });
    named.collect()
}

#[test]
fn an_edit_that_is_deleted_is_noticed() {
    let repository = Repository::read();
    let names = Watch::over(&repository, edits::unnamed_or_lost);
    let counts = Watch::over(&repository, edits::miscounted);
    for [path, crate_name, name] in edit_files(&repository) {
        for (watch, about) in [(&names, name), (&counts, crate_name)] {
            watch.notices(&about, |changed| {
                changed.files.remove(&path);
            });
        }
    }
}

#[test]
fn an_edit_that_is_renamed_is_noticed() {
    let repository = Repository::read();
    let watch = Watch::over(&repository, edits::unnamed_or_lost);
    for [path, crate_name, name] in edit_files(&repository) {
        for about in [name.as_str(), "renamed_edit"] {
            watch.notices(about, |changed| {
                let text = changed.files.remove(&path).expect("the edit is there");
                let renamed = format!("crates/{crate_name}/must-fail/renamed_edit.edit");
                changed.files.insert(renamed, text);
            });
        }
    }
}

#[test]
fn a_count_of_edits_that_is_off_is_noticed() {
    let repository = Repository::read();
    let watch = Watch::over(&repository, edits::miscounted);
    for name in repository.crates() {
        let front = format!("{name} ");
        let mut lines = repository.text(edits::COUNTS).lines();
        let line = lines.find(|line| line.starts_with(&front));
        let line = format!("\n{}\n", line.expect("each crate has a line"));
        for other in [format!("\n{name} 1000\n"), "\n".to_owned()] {
            watch.notices(name, |changed| {
                replace(changed, edits::COUNTS, &line, &other);
            });
        }
    }
    watch.notices("nothing", |changed| {
        append(changed, edits::COUNTS, "nothing 0\n");
    });
}

/// Two functions, one with a helper and a constant, and a caller of both in a crate
/// above.
const LOW: &str = "const LIMIT: u8 = 5;\n
pub fn first(n: u8) -> u8 {\n    helped(n) // } fn other(\n}\n
fn helped(n: u8) -> u8 {\n    let text = b\"}\";\n    n + LIMIT\n}\n
pub fn second(n: u8) -> u8 {\n    n * 2\n}\n";
/// A trait, a type that has it by a helper, and a caller of any type's.
const KINDS: &str =
    "pub trait Kept {\n    fn kept(self) -> bool\n        ensures { result ≡ k self };\n}\n
impl Kept for Row {\n    fn kept(self) -> bool {\n        few(self.n)\n    }\n}\n
fn few(n: u8) -> bool {\n    n < 5\n}\n
pub fn any<R: Kept>(r: R) -> bool {\n    r.kept()\n}\n
pub fn other(n: u8) -> bool {\n    n < 6\n}\n";
const HIGH: &str =
    "use low;\n\npub fn both(n: u8) -> u8 {\n    low::first(n) + low::second(n)\n}\n";

/// An edit of the crate `low`, listed for a function.
fn listed(edit: &str, function: &str, name: &str) -> Repository {
    let page = format!("## low\n\n- `{function}`: its result\n  - Edits: {name}\n");
    repository_of(&[
        ("crates/low/src/lib.rt", LOW),
        ("crates/low/src/kinds.rt", KINDS),
        ("crates/high/src/lib.rt", HIGH),
        ("crates/low/specs/Low.antt", "limit = 5\n"),
        ("crates/low/must-fail/wrong.edit", edit),
        (promises::PAGE, &page),
    ])
}

const OF_HELPER: &str = "file: src/lib.rt\nold: n + LIMIT\nnew: n\n";
const OF_CONSTANT: &str = "file: src/lib.rt\nold: u8 = 5;\nnew: u8 = 6;\n";
const OF_SECOND: &str = "file: src/lib.rt\nold:     n * 2\nnew:     n * 3\n";
const OF_TYPE: &str = "file: src/kinds.rt\nold: few(self.n)\nnew: few(0)\n";
const OF_TYPE_S_HELPER: &str = "file: src/kinds.rt\nold: n < 5\nnew: n < 4\n";
const OF_OTHER: &str = "file: src/kinds.rt\nold: n < 6\nnew: n < 7\n";
const OF_DEFINITION: &str = "file: specs/Low.antt\nold: 5\nnew: 6\n";

#[test]
fn an_edit_of_another_function_is_noticed() {
    let quiet = [
        (OF_HELPER, "low::first(n)", "low/wrong"),
        (OF_CONSTANT, "low::first", "low/wrong"),
        (OF_SECOND, "low::first, second", "low/wrong"),
        (OF_SECOND, "high::both", "low/wrong (of low::second)"),
        (OF_HELPER, "high::both", "low/wrong (of `first`)"),
        (OF_DEFINITION, "high::both", "low/wrong"),
        (OF_TYPE, "low::kinds::Kept::kept", "low/wrong"),
        (OF_TYPE_S_HELPER, "low::kinds::Kept::kept", "low/wrong"),
        (OF_TYPE, "low::kinds::any", "low/wrong (of Kept::kept)"),
        (OF_TYPE, "low::kinds::any", "low/wrong (of Row::kept)"),
    ];
    for (edit, function, name) in quiet {
        let repository = listed(edit, function, name);
        assert_quiet(edits::of_other_functions, &repository);
        assert_quiet(edits::unfit, &repository);
    }
    let noticed = [
        (OF_HELPER, "low::second", "low/wrong"),
        (OF_CONSTANT, "low::second", "low/wrong"),
        (OF_SECOND, "low::first", "low/wrong"),
        (OF_SECOND, "high::both", "low/wrong"),
        (OF_SECOND, "high::both", "low/wrong (of low::first)"),
        (OF_SECOND, "low::first", "low/wrong (of low::second)"),
        (OF_OTHER, "low::kinds::Kept::kept", "low/wrong"),
        (OF_OTHER, "low::kinds::any", "low/wrong (of Kept::kept)"),
    ];
    for (edit, function, name) in noticed {
        let complaints = edits::of_other_functions(&listed(edit, function, name));
        assert_eq!(complaints.len(), 1, "{name} beside {function}");
    }
}

#[test]
fn an_edit_that_does_not_fit_is_noticed() {
    let unfit = [
        "file: src/lib.rt\nold: n * 5\nnew: n\n",
        "file: src/lib.rt\nold: fn\nnew: pub fn\n",
        "file: src/lib.rt\nold: n * 2\nnew: n * 2\n",
        "file: proofs/Low.antt\nold: 5\nnew: 6\n",
        "# nothing\n",
    ];
    for edit in unfit {
        let complaints = edits::unfit(&listed(edit, "low::second", "low/wrong"));
        assert_eq!(complaints.len(), 1, "{edit}");
    }
}

/// README's picture with a crate's name taken out, and another text in some place.
fn redraw(repository: &mut Repository, name: &str, beside: &str, text: &str) {
    let drawn = |name: &str| format!("[{name}]");
    replace(repository, stack::PAGE, &drawn(name), "");
    replace(repository, stack::PAGE, &drawn(beside), text);
}

#[test]
fn a_picture_without_a_crate_is_noticed() {
    let repository = Repository::read();
    let watch = Watch::over(&repository, stack::unlike_the_crates);
    for name in repository.crates() {
        let drawn = format!("[{name}]");
        for other in [name, "[]", &format!("{drawn}  {drawn}")] {
            watch.notices(&format!("{name} "), |changed| {
                replace(changed, stack::PAGE, &drawn, other);
            });
        }
        watch.notices("nothing, which is no crate", |changed| {
            replace(changed, stack::PAGE, &drawn, "[nothing]");
        });
        watch.notices(&format!("no line of {name}"), |changed| {
            let line = format!("\n    crates/{name} ");
            replace(changed, stack::PAGE, &line, "\n    crates/nothing ");
        });
        watch.notices("newcrate 0 times", |changed| {
            let line = line_of(&repository, name);
            replace(changed, "crates.txt", &line, &format!("\nnewcrate:{line}"));
        });
    }
}

#[test]
fn a_crate_that_does_not_stand_above_what_it_uses_is_noticed() {
    let repository = Repository::read();
    let watch = Watch::over(&repository, stack::unlike_the_crates);
    let uses = stack::uses(&repository);
    assert!(uses.len() > repository.crates().len());
    for (name, used) in uses {
        let about = format!("{name} above {used}");
        let beside = format!("[{used}]  [{name}]");
        let below = format!("[{used}]\n    [{name}]");
        for text in [beside, below] {
            watch.notices(&about, |changed| redraw(changed, name, used, &text));
        }
    }
    // A use that is new.
    watch.notices("ground above market", |changed| {
        replace(changed, "crates.txt", "\nground:", "\nground: market");
    });
}

/// README's table and the demands' files, as they are to be.
fn demands() -> Repository {
    let laws = ("crates/demands/proofs/Laws.antt", "pub law : Law\n");
    let head = "| Demand | Theorem | File |\n|---|---|---|\n";
    let mut demands = repository_of(&[laws, ("README.md", head)]);
    for demand in 1..=3 {
        let file = format!("crates/demands/proofs/Demand{demand}.antt");
        let row = format!("| {demand}, in words | `theorem_{demand}` | `{file}` |\n");
        append(&mut demands, "README.md", &row);
        let text = format!("pub theorem_{demand} : Demand{demand}\ntheorem_{demand} = refl\n");
        demands.files.insert(file, Rc::from(text));
    }
    demands
}

#[test]
fn a_theorem_that_is_lost_is_noticed() {
    let demands = demands();
    assert_quiet(theorems::missing, &demands);
    let watch = Watch::over(&demands, theorems::missing);
    for named in theorems::named(&demands) {
        let stated = format!("pub {} :", named.theorem);
        let unstated = format!("{} :", named.theorem);
        let empty = ["⊤", "0 ≡ 0"].map(|statement| format!("{stated} {statement}\n"));
        for instead in [unstated].iter().chain(&empty) {
            watch.notices(&named.theorem, |changed| {
                replace(changed, &named.file, &stated, instead);
            });
        }
        watch.notices(&named.theorem, |changed| {
            changed.files.remove(&named.file);
        });
    }
}

#[test]
fn a_theorem_that_readme_does_not_name_is_noticed() {
    let demands = demands();
    let watch = Watch::over(&demands, theorems::missing);
    for demand in ["1", "2", "3"] {
        watch.notices(&format!("no theorem of demand {demand}"), |changed| {
            let front = format!("| {demand}, in words");
            replace(changed, "README.md", &front, "| in words");
        });
        watch.notices("another_one", |changed| {
            let file = format!("crates/demands/proofs/Demand{demand}.antt");
            append(changed, &file, "pub another_one : Another\n");
        });
    }
}

/// Each theorem that README names today.
#[test]
fn a_theorem_of_today_that_is_lost_is_noticed() {
    let repository = Repository::read();
    let watch = Watch::over(&repository, theorems::missing);
    for named in theorems::named(&repository) {
        watch.notices(&named.theorem, |changed| {
            rewrite(changed, &named.file, |text| {
                text.replace(&format!("pub {} :", named.theorem), "pub another :")
            });
        });
    }
}

#[test]
fn a_file_that_a_page_cites_and_is_gone_is_noticed() {
    let repository = Repository::read();
    let watch = Watch::over(&repository, |repository| {
        theorems::undefined(repository, promises::PAGE)
    });
    let cited = theorems::cited(&repository, promises::PAGE);
    assert!(cited.len() >= 10, "the page cites {} files", cited.len());
    for cited in cited {
        watch.notices(cited.path, |changed| {
            changed.files.remove(cited.path);
        });
    }
}

#[test]
fn a_definition_that_a_page_cites_and_is_gone_is_noticed() {
    let page = "The law `two_is_two` (`crates/low/proofs/Low.antt`) says it.";
    let file = "crates/low/proofs/Low.antt";
    let text = "  pub two_is_two : 2 ≡ 2\n  two_is_two = refl\n";
    let repository = repository_of(&[("page.md", page), (file, text)]);
    let guard: Guard = |repository| theorems::undefined(repository, "page.md");
    assert_quiet(guard, &repository);
    Watch::over(&repository, guard).notices("two_is_two", |changed| {
        replace(changed, file, "pub two_is_two :", "pub two_is_three :");
    });
}

/// Each passes the proof.
#[test]
fn an_edge_of_another_shape_is_noticed() {
    let repository = Repository::read();
    let watch = Watch::over(&repository, edge::unlike_the_header);
    let verdict = "pub struct VerdictAnswer {\n    pub refusal: u64,\n    pub place: u64,\n";
    let exchanged = "pub struct VerdictAnswer {\n    pub place: u64,\n    pub refusal: u64,\n";
    let narrow = "pub struct VerdictAnswer {\n    pub refusal: u32,\n    pub place: u64,\n";
    let derived = format!("#[derive(Clone, Copy)]\n{verdict}");
    let free = format!("#[repr(C)]\n{derived}");
    let account = "    account: u32,\n    buffer: &mut [u8],\n";
    let behind = "    buffer: &mut [u8],\n    account: u32,\n";
    let both = "fn fervolatro_check<'a>(book: &'a [u8], locked: &'a [u8])";
    let changes = [
        (account, behind, "fervolatro_statement"),
        (
            both,
            "fn fervolatro_check<'a>(book: &'a [u8])",
            "fervolatro_check",
        ),
        (
            "bytes: &[u8], index: u64",
            "bytes: &[u8], index: u32",
            "fervolatro_line",
        ),
        (
            "    number: u64,\n) -> PoolAnswer",
            "    number: u32,\n) -> PoolAnswer",
            "fervolatro_balance",
        ),
        (
            "    index: u64,\n) -> CutAnswer",
            "    index: u32,\n) -> CutAnswer",
            "fervolatro_cutoff",
        ),
        (
            "fn fervolatro_rewrite",
            "fn fervolatro_write",
            "fervolatro_rewrite",
        ),
    ];
    let files = edge::code(&repository);
    let code = files.first().expect("C has something to call");
    for (old, new, about) in changes {
        watch.notices(about, |changed| replace(changed, code, old, new));
    }
    watch.notices("no call fervolatro_other", |changed| {
        let other = "\npub extern \"C\" fn fervolatro_other() -> u64 {\n    0\n}\n";
        append(changed, "crates/calendar/src/lib.rt", other);
    });
    for (old, new) in [(verdict, exchanged), (verdict, narrow), (&free, &derived)] {
        let change = |changed: &mut _| replace(changed, edge::ANSWERS, old, new);
        watch.notices("fervolatro_check", change);
    }
}

const CASES: &str = "rust/testing/tests/cases.rs";

/// A page with one rule, all that it names, and a sentence that states none.
fn one_rule() -> Repository {
    let page = "| 01 | Definition | Function | What shows it |
|---|---|---|---|
| one \\| two | `limit` (`crates/low/specs/Low.antt`) | `low::first` | `law` (`crates/low/proofs/Laws.antt`), `low/wrong`, `rust/testing/tests/cases.rs: TABLE, \"a, case\"`, `rust/testing/tests/cases.rs: by_hand` |
| three | no rule: says what is left out | | |
";
    let tests = "use std;\n\nconst TABLE: &[Case] = &[\n    \"a, case\",\n];\n
const OTHERS: &[Case] = &[\n    \"another\",\n];\n\n#[test]\nfn by_hand() {\n}\n";
    repository_of(&[
        (rules::PAGE, page),
        ("crates/low/src/lib.rt", LOW),
        ("crates/low/specs/Low.antt", "unfoldable pub limit : N\n"),
        ("crates/low/proofs/Laws.antt", "pub law : Law\n"),
        ("crates/low/must-fail/wrong.edit", OF_HELPER),
        (CASES, tests),
    ])
}

#[test]
fn what_a_rule_names_and_is_gone_is_noticed() {
    let repository = one_rule();
    assert_quiet(rules::unfounded, &repository);
    let watch = Watch::over(&repository, rules::unfounded);
    let changes = [
        ("crates/low/specs/Low.antt", "limit", "bound", "limit"),
        (
            "crates/low/src/lib.rt",
            "fn first",
            "fn third",
            "low::first",
        ),
        ("crates/low/proofs/Laws.antt", "law", "lemma", "law"),
        (CASES, "TABLE", "TABLES", "TABLE"),
        (CASES, "a, case", "a case", "a, case"),
        (CASES, "by_hand", "by_hand_too", "by_hand"),
        (rules::PAGE, "\"a, case\"", "\"another\"", "another"),
        (
            rules::PAGE,
            "/specs/Low",
            "/proofs/Laws",
            "is not of specs/",
        ),
        (
            rules::PAGE,
            "/proofs/Laws",
            "/specs/Low",
            "is not of proofs/",
        ),
        (rules::PAGE, "no rule: ", "", "three"),
    ];
    for (path, old, new, about) in changes {
        watch.notices(about, |changed| replace(changed, path, old, new));
    }
    for path in repository.files.keys().filter(|path| *path != rules::PAGE) {
        watch.notices("one | two", |changed| {
            changed.files.remove(path);
        });
    }
}

#[test]
fn a_refusal_in_other_words_is_noticed() {
    let repository = Repository::read();
    let watch = Watch::over(&repository, rules::said_otherwise);
    for (old, new, about) in [
        ("| 1 \\| book", "| 1 \\| a book", "Short"),
        ("the rules above", "the rules", "Field"),
        ("| 15 \\| ", "| 17 \\| ", "PastEnd"),
        ("row that is cut short", "row cut short", "DispatchRow"),
        ("Refusals: 16,", "Refusals: 17,", "DispatchRow"),
        ("| 17 when ", "| 19 when ", "NoLocked"),
        ("then 18 when the locked", "then 18 when a locked", "Locked"),
        ("no book read names", "neither book names", "NoAccount"),
        ("reading gives 19,", "reading gives 20,", "NmasLine"),
    ] {
        watch.notices(about, |changed| replace(changed, rules::PAGE, old, new));
    }
}

#[test]
fn a_rule_without_a_cell_is_noticed() {
    let repository = one_rule();
    let watch = Watch::over(&repository, rules::unfounded);
    let cells = [
        ("`limit` (`crates/low/specs/Low.antt`)", "a definition"),
        ("`low::first`", "a function"),
        ("one \\| two", "a sentence"),
    ];
    for (cell, about) in cells {
        watch.notices(about, |changed| replace(changed, rules::PAGE, cell, ""));
    }
    watch.notices("anything that shows it", |changed| {
        rewrite(changed, rules::PAGE, |text| {
            let (front, rest) = text.split_once("`law`").expect("it names the law");
            let (_, rest) = rest.split_once(" |\n").expect("the row ends");
            format!("{front} |\n{rest}")
        });
    });
}

/// Of each row of today's page.
#[test]
fn a_sentence_of_the_rules_that_is_lost_is_noticed() {
    let repository = Repository::read();
    let watch = Watch::over(&repository, rules::lost_words);
    assert!(rules::rule_rows(&repository).len() >= 200);
    let page = repository.text(rules::PAGE);
    for (document, next) in [("01", "02"), ("02", "The guide")] {
        let begin = format!("\n## {document}\n");
        let (_, rest) = page.split_once(&begin).expect("it begins so");
        let end = format!("\n## {next}\n");
        let (part, _) = rest.split_once(&end).expect("it ends so");
        let rows = part.lines().filter(|line| line.starts_with("| "));
        let head = format!("| {document} |");
        for row in rows.filter(|line| !line.starts_with(&head)) {
            watch.notices(&format!("the sentences of {document}"), |changed| {
                rewrite(changed, rules::PAGE, |text| text.replacen(row, "", 1));
            });
        }
    }
}

#[test]
fn a_definition_of_the_guide_without_a_rule_is_noticed() {
    let repository = Repository::read();
    let watch = Watch::over(&repository, rules::of_no_rule);
    watch.notices("another_line", |changed| {
        append(
            changed,
            rules::GUIDE_LINES,
            "abbrev pub another_line : Line\n",
        );
    });
    watch.notices("consumed_half", |changed| {
        rewrite(changed, rules::PAGE, |text| {
            text.replace("`consumed_half`", "`sent_half`")
        });
    });
}

/// A row of the page's table under a heading, another number in one of its cells.
fn with_other_number(page: &str, row: &page::Row, column: &str) -> String {
    let (before, after) = page
        .split_once(&format!("# {}\n", row.under))
        .expect("the heading is there");
    let line = format!("| {} |", row.cells.join(" | "));
    let at = row.columns.iter().position(|name| name == column);
    let mut cells = row.cells.clone();
    cells[at.expect("the column is there")].insert(0, '9');
    let other = format!("| {} |", cells.join(" | "));
    let after = after.replace("| |", "|  |").replacen(&line, &other, 1);
    format!("{before}# {}\n{after}", row.under)
}

/// Offset and width of each field of today's page.
#[test]
fn a_field_that_stands_elsewhere_is_noticed() {
    let repository = Repository::read();
    let watch = Watch::over(&repository, layout::unlike_the_definitions);
    let rows = page::rows(repository.text(layout::PAGE)).into_iter();
    let fields: Vec<page::Row> = rows.filter(|row| row.cell("Field").is_some()).collect();
    assert!(fields.len() >= 60, "the page has {} fields", fields.len());
    for row in fields {
        let (title, _) = row.under.split_once(',').expect("the heading has the size");
        for column in ["Offset", "Bytes"] {
            watch.notices(title, |changed| {
                rewrite(changed, layout::PAGE, |page| {
                    with_other_number(page, &row, column)
                });
            });
        }
    }
}

/// Each field of today's page and header, its name and its decimals.
#[test]
fn a_field_of_a_file_that_is_another_is_noticed() {
    let repository = Repository::read();
    let watch = Watch::over(&repository, columns::unlike_the_definitions);
    let columns = columns::columns(&repository);
    assert_eq!(columns.len(), 17);
    for columns::Column { name, .. } in &columns {
        for (path, before, after) in [
            (layout::PAGE, "| ", " |"),
            (layout::HEADER, "\n *   ", " "),
            (columns::COLUMNS, " -- ", ""),
        ] {
            watch.notices(name, |changed| {
                let [old, new] = [name, "OTHER"].map(|name| format!("{before}{name}{after}"));
                rewrite(changed, path, |text| text.replacen(&old, &new, 1));
            });
        }
    }
    for (path, old, new, about) in [
        (layout::PAGE, "factor | 6 |", "factor | 4 |", "RBF"),
        (
            layout::HEADER,
            "factor             6\n",
            "factor             4\n",
            "RBF",
        ),
        (
            columns::COLUMNS,
            "number_form 6 1",
            "number_form 4 1",
            "RBF",
        ),
    ] {
        watch.notices(about, |changed| replace(changed, path, old, new));
    }
}

#[test]
fn a_record_of_another_size_is_noticed() {
    let repository = Repository::read();
    let watch = Watch::over(&repository, layout::unlike_the_definitions);
    for (name, size, title) in [
        ("Entry", 12, "Region entry"),
        ("Constraint", 40, "Constraint"),
        ("UnitRow", 20, "Unit row"),
        ("EnergyRow", 24, "Energy row"),
        ("Contract", 36, "Contract"),
    ] {
        let given = layout::size_given(name, size);
        for (old, new) in [
            (format!(" = {size};"), format!(" = {size}0;")),
            (format!("{{ {size} }}"), format!("{{ {size}0 }}")),
        ] {
            let other = given.replacen(&old, &new, 1);
            watch.notices(title, |changed| {
                replace(changed, layout::SIZES, &given, &other)
            });
        }
        let heading = format!("### {title}, {size} bytes\n");
        let other = format!("### {title}, {size}0 bytes\n");
        watch.notices(title, |changed| {
            replace(changed, layout::PAGE, &heading, &other)
        });
    }
}

#[test]
fn a_range_of_no_rule_is_noticed() {
    let repository = Repository::read();
    let watch = Watch::over(&repository, layout::unlike_the_definitions);
    for (old, new, title) in [
        (
            "| 0 to 2,500,000; 0 but",
            "| 0 to 2,500,001; 0 but",
            "Constraint",
        ),
        (
            "| constraints | 0 to 64 |",
            "| constraints | 0 to 65 |",
            "Book header",
        ),
        (
            "| lines | 0 to 2,152 |",
            "| lines | 0 to 2,151 |",
            "Statement header",
        ),
        ("| run | 1 to 99 |\n", "| run | 1 to 98 |\n", "VERSIONNO"),
    ] {
        watch.notices(title, |changed| replace(changed, layout::PAGE, old, new));
    }
}

#[test]
fn another_worked_book_on_the_page_is_noticed() {
    let repository = Repository::read();
    assert_quiet(layout::another_worked_book, &repository);
    let watch = Watch::over(&repository, layout::another_worked_book);
    let changes = [
        (
            "`54 08 d5 00 00 00 00 00`",
            "`54 08 d5 00 00 00 00 01`",
            "at 92",
        ),
        ("| 48 bytes `00` |", "| 47 bytes `00` |", "at 84"),
        (
            "\n500 8 1 0 -2.6177\n",
            "\n500 8 1 0 -2.6178\n",
            "another listing",
        ),
    ];
    for (old, new, about) in changes {
        watch.notices(about, |changed| replace(changed, layout::PAGE, old, new));
    }
}

#[test]
fn a_limit_that_is_off_is_noticed() {
    let repository = Repository::read();
    let watch = Watch::over(&repository, layout::other_limits);
    let rows = page::rows(repository.text(layout::PAGE)).into_iter();
    let limits: Vec<page::Row> = rows.filter(|row| row.under == "Limits").collect();
    assert_eq!(limits.len(), 17);
    for row in limits {
        watch.notices(row.first(), |changed| {
            rewrite(changed, layout::PAGE, |page| {
                with_other_number(page, &row, "Number")
            });
        });
    }
    let changes = [
        (
            "crates/book/specs/Header.antt",
            "h.units 600",
            "h.units 601",
            "unit rows",
        ),
        (
            "crates/ground/specs/Units.antt",
            "most_lines = 2152",
            "most_lines = 2153",
            "longest",
        ),
        (
            columns::COLUMNS,
            "number_form 0 1 99  --",
            "number_form 0 1 100  --",
            "line of a reconciliation file",
        ),
        (layout::HEADER, "51,672", "51,673", "51,673"),
    ];
    for (path, old, new, about) in changes {
        watch.notices(about, |changed| {
            rewrite(changed, path, |text| text.replacen(old, new, 1));
        });
    }
}

#[test]
fn a_number_that_stands_for_something_else_is_noticed() {
    let repository = Repository::read();
    let watch = Watch::over(&repository, layout::other_numbers);
    let changes = [
        ("| 6 | slow lower", "| 6 | delayed lower", "Services"),
        (
            "| 10 | regulation lower | 1, 2 | factors and residual energy |\n",
            "",
            "Services",
        ),
        ("| 2 | SA1 | 4 |", "| 2 | TAS1 | 4 |", "Regions"),
        ("| 3 | TAS1 | 8 |", "| 3 | TAS1 | 4 |", "TAS1"),
        ("| 1 | factored |", "| 2 | factored |", "Modes"),
        (
            "| 1 | `ENABLEMENT` |",
            "| 2 | `ENABLEMENT` |",
            "Payment types",
        ),
        (
            "| 7 | residual used | 1 | used |",
            "| 7 | residual used | 1 | unused |",
            "Parts",
        ),
    ];
    for (old, new, about) in changes {
        watch.notices(about, |changed| replace(changed, layout::PAGE, old, new));
    }
}

#[test]
fn a_refusal_of_other_words_is_noticed() {
    let repository = Repository::read();
    let watch = Watch::over(&repository, layout::other_refusals);
    for number in 1..=layout::REFUSALS {
        let about = format!("refusal {number}");
        watch.notices(&about, |changed| {
            let row = format!("\n| {number} | ");
            rewrite(changed, layout::PAGE, |page| {
                let (front, refusals) = page.split_once("## Refusals\n").expect("they are there");
                format!(
                    "{front}## Refusals\n{}",
                    refusals.replacen(&row, "\n| 99 | ", 1)
                )
            });
        });
    }
    let changes = [
        (
            "book shorter than 84 bytes",
            "book shorter than 85 bytes",
            "refusal 1",
        ),
        ("the entry's offset", "the row's offset", "refusal 9"),
        ("   12  a line would", "   16  a line would", "refusal 12"),
        (
            "index is not below the number of lines",
            "index is above the number of lines",
            "refusal 15",
        ),
        (
            "index is not below the number of stages",
            "index is above the number of stages",
            "refusal 15",
        ),
        ("type is not below 3", "type is not below 4", "refusal 15"),
    ];
    for (old, new, about) in changes {
        watch.notices(about, |changed| replace(changed, layout::HEADER, old, new));
    }
}

/// A header with constants of both kinds, and the page's table of them.
fn names() -> Repository {
    let header = "#define FERVOLATRO_H\n#define FERVOLATRO_LARGEST_BOOK 39796
enum {\n    /* refusals, from 0 */\n    FERVOLATRO_ACCEPTED = 0,\n    FERVOLATRO_SHORT = 1\n};
#define FERVOLATRO_LONGEST 51672LL\n";
    let page = "## Names in the header\n\n| Name | Value |\n|---|---|
| `FERVOLATRO_LARGEST_BOOK` | 39,796 |\n| `FERVOLATRO_ACCEPTED` | 0 |\n| `FERVOLATRO_SHORT` | 1 |
| `FERVOLATRO_LONGEST` | 51,672 |\n";
    repository_of(&[(layout::HEADER, header), (layout::PAGE, page)])
}

#[test]
fn a_name_of_the_header_with_another_value_is_noticed() {
    let names = names();
    assert_quiet(layout::other_names, &names);
    let watch = Watch::over(&names, layout::other_names);
    let changes = [
        (layout::HEADER, "39796", "39797", "FERVOLATRO_LARGEST_BOOK"),
        (layout::HEADER, "SHORT = 1", "SHORT = 3", "FERVOLATRO_SHORT"),
        (layout::HEADER, "51672", "51673", "FERVOLATRO_LONGEST"),
        (
            layout::HEADER,
            "FERVOLATRO_ACCEPTED = 0,",
            "",
            "FERVOLATRO_ACCEPTED",
        ),
        (
            layout::PAGE,
            "| 39,796 |",
            "| 39,797 |",
            "FERVOLATRO_LARGEST_BOOK",
        ),
        (
            layout::PAGE,
            "| `FERVOLATRO_SHORT` | 1 |\n",
            "",
            "FERVOLATRO_SHORT",
        ),
        (
            layout::PAGE,
            "`FERVOLATRO_ACCEPTED`",
            "`FERVOLATRO_REFUSED`",
            "FERVOLATRO_REFUSED",
        ),
    ];
    for (path, old, new, about) in changes {
        watch.notices(about, |changed| replace(changed, path, old, new));
    }
}

#[test]
fn a_call_that_a_c_test_leaves_out_is_noticed() {
    let repository = Repository::read();
    let watch = Watch::over(&repository, edge::untried);
    for file in ["tests/c/edge.c", "tests/c/stack.c", "tests/c/load.c"] {
        watch.notices(
            &format!("{file} does not call fervolatro_rewrite"),
            |changed| {
                rewrite(changed, file, |text| text.replace("rewrite", "reread"));
            },
        );
    }
}

#[test]
fn a_constant_of_another_number_is_noticed() {
    let repository = Repository::read();
    let watch = Watch::over(&repository, constants::unlike_the_rules);
    let constants = constants::constants(&repository);
    assert!(constants.len() >= 70, "the header has {}", constants.len());
    for constant in constants {
        let name = format!("FERVOLATRO_{}", constant.name);
        let mut forms = ["", "= "].into_iter();
        let stands = |form: &&str| {
            let text = format!("{name} {form}{}", constant.value);
            repository.text(edge::HEADER).contains(&text)
        };
        let form = forms.find(stands).expect("it stands in the header");
        watch.notices(&name, |changed| {
            let [old, new] = [&constant.value, "77"].map(|value| format!("{name} {form}{value}"));
            replace(changed, edge::HEADER, &old, &new);
        });
    }
}

#[test]
fn a_stage_of_another_number_is_noticed() {
    let repository = Repository::read();
    let watch = Watch::over(&repository, constants::unlike_the_rules);
    for (old, new, about) in [
        ("Half = 7", "Half = 8", "FERVOLATRO_STAGE_HALF"),
        ("Line = 1", "Lines = 1", "FERVOLATRO_STAGE_LINE"),
    ] {
        watch.notices(about, |changed| {
            replace(changed, constants::ANSWERS, old, new);
        });
    }
}

#[test]
fn a_constant_that_is_gone_or_new_is_noticed() {
    let repository = Repository::read();
    let watch = Watch::over(&repository, constants::unlike_the_rules);
    for constant in constants::constants(&repository) {
        let name = format!("FERVOLATRO_{}", constant.name);
        watch.notices("FERVOLATRO_", |changed| {
            rewrite(changed, edge::HEADER, |text| text.replace(&name, "OTHER"));
        });
    }
    watch.notices("FERVOLATRO_MOST_POOLS", |changed| {
        append(changed, edge::HEADER, "#define FERVOLATRO_MOST_POOLS 208\n");
    });
}

#[test]
fn work_put_aside_is_noticed() {
    let repository = Repository::read();
    let watch = Watch::over(&repository, strays);
    for path in ["wip/", "wip/note.md", "docs/Law.antt", "rust/lib.rt"] {
        watch.notices(path, |changed| {
            changed.files.insert(path.to_owned(), Rc::from(""));
        });
    }
}
