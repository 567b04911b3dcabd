//! Guards: what the repository has to hold, so that a contract, a theorem or an edit
//! cannot be lost without the gate's noticing. Nothing here proves anything: that a
//! contract holds, and that an edit is refused, is for `rt ci` to say.
//!
//! Each guard takes the repository's files as they are in memory, and gives its
//! complaints. The tests of `losses` take something away first, and ask for a complaint
//! about it.

mod columns;
mod constants;
mod dependencies;
mod edge;
mod edits;
mod ghosts;
mod layout;
mod losses;
mod page;
mod promises;
mod rattle;
mod repository;
mod rules;
mod stack;
mod theorems;
mod word_for_word;

use repository::Repository;

fn assert_none(complaints: &[String]) {
    let count = complaints.len();
    assert!(count == 0, "{count} complaints:\n{}", complaints.join("\n"));
}

#[test]
fn every_public_function_has_a_promise() {
    assert_none(&promises::empty_promises(&Repository::read()));
}

#[test]
fn contracts_stand_word_for_word_in_promises() {
    assert_none(&promises::differing_contracts(&Repository::read()));
}

#[test]
fn promises_has_a_heading_for_each_crate() {
    assert_none(&promises::headings_unlike_the_crates(&Repository::read()));
}

#[test]
fn every_public_function_is_named_in_promises() {
    assert_none(&promises::functions_unnamed(&Repository::read()));
}

#[test]
fn promises_says_which_functions_ask_nothing() {
    assert_none(&promises::asked_unlike_the_code(&Repository::read()));
}

#[test]
fn types_that_say_something_are_told_of_in_promises() {
    assert_none(&promises::types_unnamed(&Repository::read()));
}

#[test]
fn every_crate_names_what_it_lists() {
    assert_none(&dependencies::unused(&Repository::read()));
}

#[test]
fn every_edit_is_there_and_named_in_promises() {
    assert_none(&edits::unnamed_or_lost(&Repository::read()));
}

#[test]
fn no_crate_has_lost_an_edit() {
    assert_none(&edits::miscounted(&Repository::read()));
}

#[test]
fn every_edit_fits_the_code() {
    assert_none(&edits::unfit(&Repository::read()));
}

#[test]
fn every_edit_is_of_the_function_it_is_listed_for() {
    assert_none(&edits::of_other_functions(&Repository::read()));
}

#[test]
fn every_demand_has_its_theorem() {
    assert_none(&theorems::missing(&Repository::read()));
}

#[test]
fn what_the_pages_cite_is_defined() {
    let pages = ["PROMISES", "DECISIONS", "BOOK", "RULES"].map(|page| format!("docs/{page}.md"));
    for page in pages.iter().map(String::as_str).chain(["README.md"]) {
        assert_none(&theorems::undefined(&Repository::read(), page));
    }
}

#[test]
fn every_rule_has_its_definition_its_function_and_what_shows_it() {
    assert_none(&rules::unfounded(&Repository::read()));
}

#[test]
fn every_definition_of_the_guide_is_a_rule_s() {
    assert_none(&rules::of_no_rule(&Repository::read()));
}

#[test]
fn every_sentence_of_the_rules_is_there() {
    assert_none(&rules::lost_words(&Repository::read()));
}

#[test]
fn the_refusals_in_words_are_the_rules() {
    assert_none(&rules::said_otherwise(&Repository::read()));
}

#[test]
fn the_fields_of_the_book_page_are_the_definitions() {
    assert_none(&layout::unlike_the_definitions(&Repository::read()));
}

#[test]
fn the_worked_book_of_the_book_page_is_the_proved_one() {
    assert_none(&layout::another_worked_book(&Repository::read()));
}

#[test]
fn the_limits_of_the_book_page_are_the_definitions_and_the_header_s() {
    assert_none(&layout::other_limits(&Repository::read()));
}

#[test]
fn the_numbers_of_the_book_page_are_the_code_s() {
    assert_none(&layout::other_numbers(&Repository::read()));
}

#[test]
fn the_refusals_of_the_book_page_are_the_header_s() {
    assert_none(&layout::other_refusals(&Repository::read()));
}

#[test]
fn the_names_of_the_book_page_are_the_header_s() {
    assert_none(&layout::other_names(&Repository::read()));
}

#[test]
fn the_fields_of_a_file_are_the_definitions() {
    assert_none(&columns::unlike_the_definitions(&Repository::read()));
}

#[test]
fn the_edge_is_the_header_s() {
    assert_none(&edge::unlike_the_header(&Repository::read()));
}

#[test]
fn the_picture_is_that_of_the_crates() {
    assert_none(&stack::unlike_the_crates(&Repository::read()));
}

#[test]
fn every_call_is_made_from_c() {
    assert_none(&edge::untried(&Repository::read()));
}

#[test]
fn the_header_s_constants_are_the_rules() {
    assert_none(&constants::unlike_the_rules(&Repository::read()));
}

/// The proved cases are about the bytes of the book that README's first command reads.
#[test]
fn the_proved_book_is_the_worked_book() {
    let bytes = layout::worked_book(&Repository::read());
    let book = std::fs::read(fervolatro_testing::in_repository("books/worked.book"));
    assert_eq!(bytes, book.expect("the worked book is there"));
}

#[test]
fn nothing_lies_outside_the_crates() {
    assert_none(&strays(&Repository::read()));
}

/// Work that was put aside, and Rattle or antt that no gate looks at.
fn strays(repository: &Repository) -> Vec<String> {
    let paths = repository.files.keys();
    let is_stray = |path: &&String| {
        let is_proved = path.ends_with(".rt") || path.ends_with(".antt");
        path.starts_with("wip/") || is_proved && !path.starts_with("crates/")
    };
    let strays = paths.filter(is_stray);
    strays
        .map(|path| format!("{path} lies outside the crates"))
        .collect()
}
