//! The repository's files, held in memory, so that a test can take something away
//! and see whether a guard notices.

use std::collections::BTreeMap;
use std::fs;
use std::path::Path;
use std::rc::Rc;

use fervolatro_testing::in_repository;

use crate::rattle::is_word_letter;

/// Folders of the whole repository that hold what was built, or git's own files.
const NOT_OURS: [&str; 3] = [".git", "target", "rust/target"];

/// Every file by its path from the repository's root, with its text. A folder
/// stands there as well, its path ending in a slash.
#[derive(Clone)]
pub struct Repository {
    pub files: BTreeMap<String, Rc<str>>,
}

impl Repository {
    pub fn read() -> Self {
        let mut files = BTreeMap::new();
        read_folder(&in_repository(""), "", &mut files);
        Repository { files }
    }

    /// The text of a file; that of one that is not there is empty.
    pub fn text(&self, path: &str) -> &str {
        self.files.get(path).map_or("", |text| text)
    }

    /// Paths and texts of the files that begin and end so.
    pub fn between<'a>(
        &'a self,
        front: &'a str,
        end: &'a str,
    ) -> impl Iterator<Item = (&'a str, &'a str)> {
        let files = self.files.iter();
        files
            .filter(move |(path, _)| path.starts_with(front) && path.ends_with(end))
            .map(|(path, text)| (path.as_str(), &**text))
    }

    /// The crates that `crates.txt` lists.
    pub fn crates(&self) -> Vec<&str> {
        self.listed().map(|(name, _)| name).collect()
    }

    /// Each crate of `crates.txt` and what it uses. Of a static library the word for it
    /// stands behind the name.
    pub fn listed(&self) -> impl Iterator<Item = (&str, &str)> {
        let lines = self.text("crates.txt").lines();
        let listed = lines.filter(|line| !line.starts_with('#'));
        let named = listed.filter_map(|line| line.split_once(':'));
        named.map(|(front, uses)| (front.split(' ').next().unwrap_or(front), uses))
    }
}

/// Folders that hold what was built, or git's own files: a crate's `out` among them.
fn is_built(path: &str) -> bool {
    let of_a_crate = path
        .strip_prefix("crates/")
        .and_then(|path| path.split_once('/'));
    NOT_OURS.contains(&path) || of_a_crate.is_some_and(|(_, inside)| inside == "out")
}

fn read_folder(root: &Path, below: &str, files: &mut BTreeMap<String, Rc<str>>) {
    let folder = root.join(below);
    let entries = fs::read_dir(&folder).unwrap_or_else(|why| panic!("{}: {why}", folder.display()));
    for entry in entries {
        let entry = entry.expect("the folder can be read");
        let name = entry.file_name().into_string().expect("names are UTF-8");
        let path = format!("{below}{name}");
        if is_built(&path) {
            continue;
        }
        if entry.path().is_dir() {
            let path = format!("{path}/");
            read_folder(root, &path, files);
            files.insert(path, Rc::from(""));
        } else {
            let bytes = fs::read(entry.path()).unwrap_or_else(|why| panic!("{path}: {why}"));
            files.insert(path, Rc::from(String::from_utf8_lossy(&bytes)));
        }
    }
}

/// What follows these words, at each place where a text has them. Where they begin with a
/// name it is a whole one: `unused_line` is no `used_line`.
pub fn behind<'a>(text: &'a str, words: &'a str) -> impl Iterator<Item = &'a str> {
    let is_name = words.starts_with(is_word_letter);
    let found = text.match_indices(words);
    let whole = found.filter(move |&(at, _)| !(is_name && text[..at].ends_with(is_word_letter)));
    whole.map(|(at, _)| &text[at + words.len()..])
}

/// A text with its numbers written without groups: `50_000_000_000` as `50000000000`.
pub fn without_groups(text: &str) -> String {
    let letters: Vec<char> = text.chars().collect();
    let is_digit = |at: usize| letters.get(at).is_some_and(char::is_ascii_digit);
    let is_group = |at: usize| letters[at] == '_' && at > 0 && is_digit(at - 1) && is_digit(at + 1);
    let kept = (0..letters.len()).filter(|&at| !is_group(at));
    kept.map(|at| letters[at]).collect()
}

#[cfg(test)]
mod tests {
    use super::{behind, is_built, Repository};
    use std::rc::Rc;

    #[test]
    fn what_was_built_is_known() {
        for path in ["target", "rust/target", ".git", "crates/low/out"] {
            assert!(is_built(path), "{path}");
        }
        for path in ["crates/low/src", "crates/low/src/out", "crates/out", "out"] {
            assert!(!is_built(path), "{path}");
        }
    }

    #[test]
    fn crates_are_read() {
        let text = "# a comment: none\nlow:\nlow_c staticlib: low std\n";
        let files = [("crates.txt".to_owned(), Rc::from(text))];
        let repository = Repository {
            files: files.into_iter().collect(),
        };
        let listed: Vec<_> = repository.listed().collect();
        assert_eq!(listed, [("low", ""), ("low_c", " low std")]);
        assert_eq!(repository.crates(), ["low", "low_c"]);
    }

    #[test]
    fn names_are_whole() {
        let text = "unused_line = 5\nused_line = 4\n  (used_line = 6)";
        let rests: Vec<&str> = behind(text, "used_line = ").collect();
        assert_eq!(rests, ["4\n  (used_line = 6)", "6)"]);
        assert_eq!(behind(text, " = ").count(), 3);
    }
}
