//! Prints `docs/PROMISES.md` with the contracts as they stand in the code. To be put
//! there by hand: the gate only compares.

// They have more than is printed here: what the guards of the edits ask.
#[allow(dead_code)]
#[path = "../tests/guard/ghosts.rs"]
mod ghosts;
#[allow(dead_code)]
#[path = "../tests/guard/rattle.rs"]
mod rattle;
// And what the guard of the headings asks.
#[allow(dead_code)]
#[path = "../tests/guard/repository.rs"]
mod repository;
// And what the guard that compares them asks.
#[allow(dead_code)]
#[path = "../tests/guard/word_for_word.rs"]
mod word_for_word;

fn main() {
    let repository = repository::Repository::read();
    print!("{}", word_for_word::renewed(&repository));
}
