//! The guard of README's picture of the crates, `[name]` each: that it has every crate of
//! `crates.txt` just once, and each on a line above all that it uses; and that the list
//! below it has a line for each.

use crate::repository::Repository;

pub const PAGE: &str = "README.md";

/// The section that has the picture.
const TITLE: &str = "\n## Layout\n";

fn section(repository: &Repository) -> &str {
    let (_, section) = repository.text(PAGE).split_once(TITLE).unwrap_or_default();
    section.split("\n## ").next().unwrap_or(section)
}

/// The crates of the picture, and the line of the section that each stands on.
fn drawn(repository: &Repository) -> Vec<(&str, usize)> {
    let lines = section(repository).lines().zip(1..);
    lines
        .flat_map(|(line, at)| bracketed(line).map(move |name| (name, at)))
        .collect()
}

fn bracketed(line: &str) -> impl Iterator<Item = &str> {
    let opened = line.split('[').skip(1);
    opened.filter_map(|rest| rest.split_once(']').map(|(name, _)| name))
}

/// Each crate with one that it uses, if that is listed too: the toolchain's are not.
pub fn uses(repository: &Repository) -> Vec<(&str, &str)> {
    let crates = repository.crates();
    let listed = repository.listed();
    let pairs = listed.flat_map(|(name, used)| used.split_whitespace().map(move |one| (name, one)));
    pairs.filter(|(_, used)| crates.contains(used)).collect()
}

/// Where the picture and `crates.txt` differ.
pub fn unlike_the_crates(repository: &Repository) -> Vec<String> {
    let drawn = drawn(repository);
    let line_of = |name: &str| {
        let mut drawn = drawn.iter();
        drawn
            .find(|(known, _)| *known == name)
            .map(|(_, line)| *line)
    };
    let crates = repository.crates();
    let mut unlike = Vec::new();
    for name in &crates {
        let count = drawn.iter().filter(|(known, _)| known == name).count();
        if count != 1 {
            unlike.push(format!("{PAGE}'s picture has {name} {count} times"));
        }
        if !section(repository).contains(&format!("\n    crates/{name} ")) {
            unlike.push(format!("{PAGE}'s list has no line of {name}"));
        }
    }
    for (name, _) in drawn.iter().filter(|(name, _)| !crates.contains(name)) {
        unlike.push(format!("{PAGE}'s picture has {name}, which is no crate"));
    }
    for (name, used) in uses(repository) {
        if line_of(name) >= line_of(used) {
            unlike.push(format!(
                "{PAGE}'s picture does not have {name} above {used}"
            ));
        }
    }
    unlike
}
