//! What Rattle types and traits say by their ghost items: of a struct what holds of each
//! of its values, of a trait what each of its types has to have, of a type what it has
//! for a trait. Read from the text, as functions are.

use crate::rattle::{closing, code, path_of, reading, words, Owner, Reader};
use crate::repository::Repository;

/// A struct or an enum, a trait, or what a type has for a trait.
#[derive(Clone, Debug)]
pub struct Declaration {
    /// `crate::module::Type`, `crate::module::Trait`, `crate::module::Trait for Type`.
    pub path: String,
    /// The type's name, or that of the trait.
    pub name: String,
    pub kind: Kind,
    pub file: String,
    /// Whether it says so. What a type has for a trait does not.
    is_public: bool,
    /// The first and the last line, counted from 1.
    pub lines: (usize, usize),
    /// Each ghost item but `ghost use`, white space made single.
    pub items: Vec<String>,
    /// The words between its braces.
    words: Vec<String>,
}

#[derive(Clone, Copy, Debug, PartialEq)]
pub enum Kind {
    Type,
    Trait,
    OfTrait,
}

/// Every declaration of every crate, those that say nothing by ghost items too.
pub fn all_declarations(repository: &Repository) -> Vec<Declaration> {
    let code = code(repository);
    code.flat_map(|(path, text)| declarations(path, text))
        .collect()
}

/// Those that say something by ghost items, and that other crates see: what a type has
/// for a trait is seen where the trait is.
pub fn public_declarations(repository: &Repository) -> Vec<Declaration> {
    let all = all_declarations(repository);
    let is_hidden = |name: &str| {
        let mut traits = all.iter().filter(|one| one.kind == Kind::Trait);
        traits.any(|one| one.name == name && !one.is_public)
    };
    let is_seen = |one: &&Declaration| match one.kind {
        Kind::OfTrait => !is_hidden(&one.name),
        _ => one.is_public,
    };
    let seen = all.iter().filter(is_seen);
    seen.filter(|one| !one.items.is_empty()).cloned().collect()
}

/// The types of which a value says something: those with ghost fields, and those that
/// have one of these among their fields.
pub fn asking_types(repository: &Repository) -> Vec<String> {
    let all = all_declarations(repository);
    let types: Vec<&Declaration> = all.iter().filter(|one| one.kind == Kind::Type).collect();
    let mut asking: Vec<String> = Vec::new();
    loop {
        let has_one = |one: &Declaration| one.words.iter().any(|word| asking.contains(word));
        let asks = |one: &Declaration| !one.items.is_empty() || has_one(one);
        let new = types.iter().filter(|one| !asking.contains(&one.name));
        let new: Vec<String> = new
            .filter(|one| asks(one))
            .map(|one| one.name.clone())
            .collect();
        if new.is_empty() {
            return asking;
        }
        asking.extend(new);
    }
}

/// The declarations of one file, as they follow each other.
fn declarations(file: &str, text: &str) -> Vec<Declaration> {
    reading(file, text, |reader| {
        let types = (0..reader.tokens.len()).filter_map(|at| of_type(reader, at));
        let traits = reader
            .owners
            .iter()
            .filter_map(|owner| of_trait(reader, owner));
        let mut found: Vec<Declaration> = types.chain(traits).collect();
        found.sort_by_key(|one| one.lines);
        found
    })
}

/// The struct or the enum whose word is this token. One that ends without a bracket has
/// no fields.
fn of_type(reader: &Reader, at: usize) -> Option<Declaration> {
    if !reader.is(at, "struct") && !reader.is(at, "enum") {
        return None;
    }
    let name = reader.tokens.get(at + 1).filter(|token| token.is_word())?;
    let behind = reader.behind_kinds(at + 2);
    let opens = |at: &usize| ["{", "(", ";"].iter().any(|sign| reader.is(*at, sign));
    let open = (behind..reader.tokens.len()).find(opens)?;
    let block = Block {
        from: at,
        open,
        to: closing(reader.tokens, open),
    };
    // A field may lie in a variant's braces, and so in any.
    let starts = (open..block.to).filter(|&at| is_item(reader, at));
    let items = starts.map(|at| item(reader, at, block.to).0).collect();
    let path = path_of(reader.file, None, name.text);
    Some(block.declared(reader, Kind::Type, path, name.text, items))
}

/// A trait, or what a type has for one.
fn of_trait(reader: &Reader, owner: &Owner) -> Option<Declaration> {
    let block = Block {
        from: owner.from,
        open: owner.open,
        to: owner.to,
    };
    let mut items = Vec::new();
    let mut at = owner.open + 1;
    while at < owner.to {
        if is_item(reader, at) {
            let (item, end) = item(reader, at, owner.to);
            items.push(item);
            at = end;
        }
        // What stands in a method's braces is no item of the block.
        at = closing(reader.tokens, at) + 1;
    }
    let (kind, name) = match owner.for_trait {
        Some(name) => (Kind::OfTrait, name),
        None if owner.is_trait => (Kind::Trait, owner.name),
        None => return None,
    };
    let mut path = path_of(reader.file, None, name);
    if kind == Kind::OfTrait {
        path = format!("{path} for {}", owner.name);
    }
    Some(block.declared(reader, kind, path, name, items))
}

/// Where a declaration's word stands, where its bracket opens and where that closes.
struct Block {
    from: usize,
    open: usize,
    to: usize,
}

impl Block {
    fn declared(
        &self,
        reader: &Reader,
        kind: Kind,
        path: String,
        name: &str,
        items: Vec<String>,
    ) -> Declaration {
        Declaration {
            path,
            name: name.to_owned(),
            kind,
            file: reader.file.to_owned(),
            is_public: reader.is_public(self.from),
            lines: (reader.line(self.from), reader.line(self.to)),
            items,
            words: words(&reader.tokens[self.open..self.to]),
        }
    }
}

/// Whether a ghost item begins here. `ghost use` says nothing.
fn is_item(reader: &Reader, at: usize) -> bool {
    reader.is(at, "ghost") && !reader.is(at + 1, "use")
}

/// A ghost item up to the comma, the semicolon or the bracket that ends it, and where that
/// stands.
fn item(reader: &Reader, at: usize, last: usize) -> (String, usize) {
    let ends = |at: usize| [",", ";", "}"].iter().any(|sign| reader.is(at, sign));
    let mut end = at;
    while end < last && !ends(end) {
        end = closing(reader.tokens, end) + 1;
    }
    (reader.between(at, end), end)
}

#[cfg(test)]
mod tests {
    use super::{asking_types, declarations, Kind};
    use crate::repository::Repository;
    use std::rc::Rc;

    const CODE: &str = "\
ghost use Rattle.low.specs.Facts.{Few};

// struct InAComment { ghost x: { } }
#[derive(Clone, Copy)]
pub struct Few<'a> {
    pub bytes: &'a [u8],
    pub ghost few: { Few (record { b = bytes.now }) } by { Prim.hlevel props }, // why
    pub(crate) ghost long:
        { 5 ≤ length bytes.now }
}

impl<'a> Few<'a> {
    ghost use Rattle.low.specs.Lent.{lent};

    pub fn of(self) -> Few<'a> { self }
}

pub trait Put: Copy {
    ghost puts: { ℕ → Self };

    fn put(self) -> u8
        ensures { result ≡ puts self };

    ghost small: { puts ≤ 5 };
}

impl Put for Few<'_> {
    ghost puts = { few_of };

    fn put(self) -> u8 { let ghost = 5; ghost }
}

struct Bare;
pub struct Pair(u8, u8);
enum Either { One { ghost one: { A } }, Other(Few) }
";

    #[test]
    fn ghost_items_are_read() {
        let read = declarations("crates/low/src/kinds.rt", CODE);
        let of = |path: &str| {
            let mut read = read.iter();
            let one = read.find(|one| one.path == path).expect(path);
            (one.kind, one.is_public, one.lines, one.items.join("\n"))
        };
        let few = "ghost few: { Few (record { b = bytes.now }) } by { Prim.hlevel props }\n\
                   ghost long: { 5 ≤ length bytes.now }";
        let few = (Kind::Type, true, (5, 10), few.to_owned());
        assert_eq!(of("low::kinds::Few"), few);
        let put = "ghost puts: { ℕ → Self }\nghost small: { puts ≤ 5 }".to_owned();
        assert_eq!(of("low::kinds::Put"), (Kind::Trait, true, (18, 25), put));
        let puts = (Kind::OfTrait, false, (27, 31));
        let (kind, is_public, lines, items) = of("low::kinds::Put for Few");
        assert_eq!((kind, is_public, lines), puts);
        assert_eq!(items, "ghost puts = { few_of }");
        assert_eq!(of("low::kinds::Either").3, "ghost one: { A }");
        for bare in ["low::kinds::Bare", "low::kinds::Pair"] {
            assert_eq!(of(bare).3, "");
        }
        assert_eq!(read.len(), 6);
    }

    #[test]
    fn a_type_asks_by_its_fields_too() {
        let high = "pub struct Two { few: Few }\npub struct Four { two: [Two; 2] }\n\
                    pub struct Free { bytes: u8 }\n";
        let files = [
            ("crates/low/src/kinds.rt", CODE),
            ("crates/high/src/lib.rt", high),
        ];
        let files = files.map(|(path, text)| (path.to_owned(), Rc::from(text)));
        let mut asking = asking_types(&Repository {
            files: files.into_iter().collect(),
        });
        asking.sort();
        assert_eq!(asking, ["Either", "Few", "Four", "Two"]);
    }
}
