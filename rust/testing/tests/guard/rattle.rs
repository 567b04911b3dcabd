//! The functions of Rattle files: their names, their contracts, the lines that they
//! stand in, what they call. Read from the text, by its words and brackets.

use crate::repository::Repository;

/// A function, public or not.
#[derive(Clone, Debug)]
pub struct Function {
    /// `crate::module::name`, or `crate::module::Type::name`, where the type may be a trait.
    pub path: String,
    pub file: String,
    /// Whether it says so itself, or a trait that does has it.
    pub is_public: bool,
    /// Whether C calls it.
    pub is_extern: bool,
    /// `<R: Bound>`, where it has parameters that are types.
    pub kinds: String,
    /// Parameters and result, white space made single.
    pub signature: String,
    /// Each `requires { .. }` and `ensures { .. }`, with its name where it has one, white
    /// space made single.
    pub clauses: Vec<String>,
    /// The first and the last line, counted from 1.
    pub lines: (usize, usize),
    /// The type or the trait whose method or function it is.
    pub owner: Option<String>,
    /// Whether the owner is a trait, so that each of its types has one of its own.
    pub is_of_trait: bool,
    /// The trait that its owner has it for.
    pub for_trait: Option<String>,
    pub calls: Vec<Call>,
    /// The words of the body.
    pub words: Vec<String>,
}

/// A call, as far as the text says whose it is.
#[derive(Clone, Debug)]
pub struct Call {
    pub qualifier: Option<String>,
    pub name: String,
    pub is_method: bool,
}

impl Function {
    pub fn crate_name(&self) -> &str {
        first_part(&self.path)
    }

    pub fn name(&self) -> &str {
        let last = self.path.rsplit("::").next();
        last.expect("a path has a last part")
    }

    pub fn ensures(&self) -> impl Iterator<Item = &str> {
        let clauses = self.clauses.iter().map(String::as_str);
        clauses.filter(|clause| clause.starts_with("ensures"))
    }

    pub fn requires(&self) -> impl Iterator<Item = &str> {
        let clauses = self.clauses.iter().map(String::as_str);
        clauses.filter(|clause| clause.starts_with("requires"))
    }

    /// The signature up to the bracket that closes its parameters.
    pub fn parameters(&self) -> &str {
        let mut depth = 0;
        let end = self.signature.find(|letter| {
            depth += i32::from(letter == '(') - i32::from(letter == ')');
            depth == 0
        });
        &self.signature[..end.unwrap_or(self.signature.len())]
    }

    /// Whether the path ends with these names, one or several.
    pub fn is_named(&self, names: &str) -> bool {
        let rest = self.path.strip_suffix(names);
        rest.is_some_and(|rest| rest.is_empty() || rest.ends_with("::"))
    }

    pub fn has_line(&self, file: &str, line: usize) -> bool {
        self.file == file && (self.lines.0..=self.lines.1).contains(&line)
    }
}

/// The crate that a path begins with.
pub fn first_part(path: &str) -> &str {
    let front = path.split("::").next();
    front.expect("a path has a first part")
}

/// Every file of Rattle code, and its text.
pub fn code(repository: &Repository) -> impl Iterator<Item = (&str, &str)> {
    let files = repository.between("crates/", ".rt");
    files.filter(|(path, _)| path.split('/').nth(2) == Some("src"))
}

/// Every function of every crate.
pub fn all_functions(repository: &Repository) -> Vec<Function> {
    let code = code(repository);
    let mut all: Vec<Function> = code
        .flat_map(|(path, text)| functions(path, text))
        .collect();
    have_traits_call_their_types(&mut all);
    all
}

/// A trait's method does what each of its types does by that name: it is read as a call
/// of each, so that what is wrong in one is wrong in it.
fn have_traits_call_their_types(all: &mut [Function]) {
    let of_types: Vec<(String, Call)> = all.iter().filter_map(of_type).collect();
    for function in all.iter_mut().filter(|function| function.is_of_trait) {
        let is_meant = |name: &str, call: &Call| {
            function.owner.as_deref() == Some(name) && function.name() == call.name
        };
        let calls = of_types.iter().filter(|(name, call)| is_meant(name, call));
        let calls: Vec<Call> = calls.map(|(_, call)| call.clone()).collect();
        function.calls.extend(calls);
    }
}

/// The trait that a type has a function for, and the call of just that one.
fn of_type(function: &Function) -> Option<(String, Call)> {
    let call = Call {
        qualifier: function.owner.clone(),
        name: function.name().to_owned(),
        is_method: false,
    };
    function.for_trait.clone().map(|name| (name, call))
}

/// Public functions alone.
pub fn public_functions(repository: &Repository) -> Vec<Function> {
    let all = all_functions(repository).into_iter();
    all.filter(|function| function.is_public).collect()
}

/// A word or a single sign, and where it stands.
#[derive(Clone, Copy)]
pub struct Token<'a> {
    at: usize,
    pub text: &'a str,
}

impl Token<'_> {
    pub fn is_word(&self) -> bool {
        self.text.starts_with(is_word_letter)
    }
}

pub fn is_word_letter(letter: char) -> bool {
    letter.is_alphanumeric() || letter == '_'
}

/// The functions of one file.
fn functions(file: &str, text: &str) -> Vec<Function> {
    reading(file, text, |reader| {
        let starts = (0..reader.tokens.len()).filter(|&at| reader.is(at, "fn"));
        starts.filter_map(|at| reader.function(at)).collect()
    })
}

/// What is made of one file's text, read by its words and brackets.
pub fn reading<T>(file: &str, text: &str, make: impl FnOnce(&Reader) -> T) -> T {
    let bare = without_comments_and_strings(text);
    let tokens = tokens_of(&bare);
    make(&Reader {
        file,
        text,
        tokens: &tokens,
        owners: owners(&tokens),
    })
}

/// A block `impl Type { .. }`, `impl Trait for Type { .. }` or `trait Trait { .. }`.
pub struct Owner<'a> {
    /// Where its first word stands, where its brace opens, and where that closes.
    pub from: usize,
    pub open: usize,
    pub to: usize,
    /// The type's name, or that of the trait which the block declares.
    pub name: &'a str,
    pub is_trait: bool,
    /// The trait that the type has here.
    pub for_trait: Option<&'a str>,
}

pub struct Reader<'a> {
    pub file: &'a str,
    text: &'a str,
    pub tokens: &'a [Token<'a>],
    pub owners: Vec<Owner<'a>>,
}

impl Reader<'_> {
    pub fn is(&self, at: usize, text: &str) -> bool {
        self.tokens.get(at).is_some_and(|token| token.text == text)
    }

    /// The function whose `fn` is this token. The type `fn(..)` is none.
    fn function(&self, at: usize) -> Option<Function> {
        let name = self.tokens.get(at + 1).filter(|token| token.is_word())?;
        let (start, is_public) = self.start(at);
        let behind = self.behind_kinds(at + 2);
        let open = (behind..self.tokens.len()).find(|&at| self.is(at, "("))?;
        let mut next = closing(self.tokens, open) + 1;
        let (mut clauses, mut signature_end) = (Vec::new(), None);
        while next < self.tokens.len() && !self.is(next, "{") && !self.is(next, ";") {
            if self.is(next, "requires") || self.is(next, "ensures") {
                signature_end.get_or_insert(next);
                // The clause's name stands before its brace.
                let is_named = !self.is(next + 1, "{");
                let end = closing(self.tokens, next + 1 + usize::from(is_named));
                clauses.push(self.between(next, end + 1));
                next = end;
            }
            next = closing(self.tokens, next) + 1;
        }
        let end = closing(self.tokens, next);
        let block = self.owner(at);
        let owner = block.map(|block| block.name);
        let of_trait = block.filter(|block| block.is_trait);
        Some(Function {
            path: path_of(self.file, owner, name.text),
            file: self.file.to_owned(),
            // A trait's methods are as public as the trait.
            is_public: is_public || of_trait.is_some_and(|block| self.is_public(block.from)),
            is_extern: (start..at).any(|at| self.is(at, "extern")),
            kinds: of_types(self.between(at + 2, behind)),
            signature: on_one_line(&self.between(open, signature_end.unwrap_or(next))),
            clauses,
            lines: (self.line(start), self.line(end)),
            owner: owner.map(str::to_owned),
            is_of_trait: of_trait.is_some(),
            for_trait: block.and_then(|block| block.for_trait.map(str::to_owned)),
            calls: calls(&self.tokens[next..end]),
            words: words(&self.tokens[next..end]),
        })
    }

    /// Where what stands between `<` and `>` ends, if anything does.
    pub fn behind_kinds(&self, start: usize) -> usize {
        let (mut at, mut depth) = (start, 0);
        while at < self.tokens.len() {
            depth += i32::from(self.is(at, "<"));
            // `->` closes nothing.
            depth -= i32::from(self.is(at, ">") && !self.is(at - 1, "-"));
            if depth == 0 {
                break;
            }
            at += 1;
        }
        at + usize::from(at > start)
    }

    /// Where the function begins, and whether it is public. `pub(crate)` is not.
    fn start(&self, fn_at: usize) -> (usize, bool) {
        let mut start = fn_at;
        while start > 0 && ["extern", "const", "unsafe"].contains(&self.tokens[start - 1].text) {
            start -= 1;
        }
        match self.is_public(start) {
            true => (start - 1, true),
            false => (start, false),
        }
    }

    /// Whether `pub` stands before what begins at this token.
    pub fn is_public(&self, start: usize) -> bool {
        let before = start.checked_sub(1);
        before.is_some_and(|before| self.is(before, "pub"))
    }

    fn owner(&self, at: usize) -> Option<&Owner<'_>> {
        let mut owners = self.owners.iter();
        owners.find(|owner| (owner.from..owner.to).contains(&at))
    }

    /// The text from one token up to another, white space made single.
    pub fn between(&self, from: usize, to: usize) -> String {
        let start = self.tokens[from].at;
        let end = self
            .tokens
            .get(to)
            .map_or(self.text.len(), |token| token.at);
        let text = without_line_comments(&self.text[start..end]);
        text.split_whitespace().collect::<Vec<_>>().join(" ")
    }

    pub fn line(&self, token: usize) -> usize {
        let at = self
            .tokens
            .get(token)
            .map_or(self.text.len(), |token| token.at);
        line_at(self.text, at)
    }
}

/// Parameters that are types, and none that are lifetimes alone.
fn of_types(kinds: String) -> String {
    match kinds.contains(char::is_uppercase) {
        true => kinds,
        false => String::new(),
    }
}

/// A signature that stood on several lines has a blank and a comma at its ends.
fn on_one_line(signature: &str) -> String {
    signature.replace("( ", "(").replace(", )", ")")
}

/// The line, counted from 1, that has this byte.
pub fn line_at(text: &str, at: usize) -> usize {
    1 + text[..at].matches('\n').count()
}

/// The bytes of comments, strings and characters made blanks, so that no bracket and
/// no word is found in them. All else stands where it stood.
fn without_comments_and_strings(text: &str) -> String {
    let mut bare = text.as_bytes().to_vec();
    let mut at = 0;
    while at < text.len() {
        let length = comment_or_string(text, at);
        for byte in &mut bare[at..at + length] {
            if *byte != b'\n' {
                *byte = b' ';
            }
        }
        at += length.max(1);
    }
    String::from_utf8(bare).expect("whole characters were made blanks")
}

/// How many bytes a comment, a string or a character has that begins here; 0 where
/// none does.
fn comment_or_string(text: &str, at: usize) -> usize {
    let bytes = text.as_bytes();
    let rest = &bytes[at..];
    match rest {
        [b'/', b'/', ..] => rest.iter().take_while(|&&byte| byte != b'\n').count(),
        [b'"', ..] => quoted(rest, b'"'),
        [b'\'', b'\\', ..] | [b'\'', _, b'\'', ..] if !follows_word(bytes, at) => {
            quoted(rest, b'\'')
        }
        _ => 0,
    }
}

/// A name of a definition may end in a quote, as in `mod'`.
fn follows_word(bytes: &[u8], at: usize) -> bool {
    let before = at.checked_sub(1).map(|before| bytes[before]);
    before.is_some_and(|byte| byte.is_ascii_alphanumeric() || byte == b'_' || !byte.is_ascii())
}

/// The length of what stands between two of these quotes, both included.
fn quoted(rest: &[u8], quote: u8) -> usize {
    let mut at = 1;
    while at < rest.len() && rest[at] != quote {
        at += if rest[at] == b'\\' { 2 } else { 1 };
    }
    rest.len().min(at + 1)
}

/// A contract has no string, so all that stands behind two slashes is a comment.
fn without_line_comments(text: &str) -> String {
    let lines = text.lines();
    let bare = lines.map(|line| line.split("//").next().unwrap_or(line));
    bare.collect::<Vec<_>>().join("\n")
}

fn tokens_of(text: &str) -> Vec<Token<'_>> {
    let mut tokens = Vec::new();
    let mut rest = text.char_indices().peekable();
    while let Some((at, letter)) = rest.next() {
        let mut end = at + letter.len_utf8();
        if letter.is_whitespace() {
            continue;
        }
        while is_word_letter(letter) && rest.next_if(|&(_, next)| is_word_letter(next)).is_some() {
            end = rest.peek().map_or(text.len(), |&(next, _)| next);
        }
        let text = &text[at..end];
        tokens.push(Token { at, text });
    }
    tokens
}

/// The token that closes the bracket at `open`; `open` itself where none stands there.
pub fn closing(tokens: &[Token<'_>], open: usize) -> usize {
    let Some(opener) = tokens.get(open) else {
        return open;
    };
    let closer = match opener.text {
        "(" => ")",
        "[" => "]",
        "{" => "}",
        _ => return open,
    };
    let mut depth = 0;
    for (at, token) in tokens.iter().enumerate().skip(open) {
        depth += usize::from(token.text == opener.text);
        depth -= usize::from(token.text == closer);
        if depth == 0 {
            return at;
        }
    }
    panic!("`{}` is not closed", opener.text);
}

fn owners<'a>(tokens: &[Token<'a>]) -> Vec<Owner<'a>> {
    let starts = (0..tokens.len()).filter(|&at| ["impl", "trait"].contains(&tokens[at].text));
    starts.filter_map(|from| owner(tokens, from)).collect()
}

fn owner<'a>(tokens: &[Token<'a>], from: usize) -> Option<Owner<'a>> {
    let open = (from..tokens.len()).find(|&at| tokens[at].text == "{")?;
    let is_trait = tokens[from].text == "trait";
    let head = &tokens[from + 1..open];
    let name = match is_trait {
        // Behind its name may stand what its types have to be besides.
        true => head.first().map(|token| token.text),
        false => last_type(head),
    };
    let before_type = head.iter().position(|token| token.text == "for");
    Some(Owner {
        from,
        open,
        to: closing(tokens, open),
        name: name?,
        is_trait,
        for_trait: before_type.and_then(|at| last_type(&head[..at])),
    })
}

/// `Type` of `<'a> Type<'a>` and of `Trait for Type`.
fn last_type<'a>(tokens: &[Token<'a>]) -> Option<&'a str> {
    let mut depth = 0;
    let outside = tokens.iter().filter(|token| {
        depth += i32::from(token.text == "<") - i32::from(token.text == ">");
        depth == 0 && token.is_word()
    });
    outside.last().map(|token| token.text)
}

fn calls(body: &[Token<'_>]) -> Vec<Call> {
    let opened = (1..body.len()).filter(|&at| body[at].text == "(");
    let names = opened.filter_map(|open| called_name(body, open));
    names.map(|name| call(body, name)).collect()
}

/// Where the name of a call stands, before its bracket and the types that it may be
/// given, as in `name::<Type>(`.
fn called_name(body: &[Token<'_>], open: usize) -> Option<usize> {
    let mut name = open - 1;
    if body[name].text == ">" {
        let types = body[..name].iter().rposition(|token| token.text == "<")?;
        name = types
            .checked_sub(3)
            .filter(|_| body[types - 1].text == ":")?;
    }
    body[name].is_word().then_some(name)
}

fn call(body: &[Token<'_>], name: usize) -> Call {
    let before = |count: usize| name.checked_sub(count).map(|at| body[at]);
    let is = |count: usize, text: &str| before(count).is_some_and(|token| token.text == text);
    let is_qualified = is(1, ":") && is(2, ":");
    let qualifier = before(3).filter(|token| is_qualified && token.is_word());
    Call {
        qualifier: qualifier.map(|token| token.text.to_owned()),
        name: body[name].text.to_owned(),
        is_method: is(1, "."),
    }
}

pub fn words(body: &[Token<'_>]) -> Vec<String> {
    let words = body.iter().filter(|token| token.is_word());
    words.map(|token| token.text.to_owned()).collect()
}

/// `crates/NAME/src/FILE.rt` and what stands in it: the crate's own file has no
/// name of its own.
pub fn path_of(file: &str, owner: Option<&str>, name: &str) -> String {
    let parts = file.trim_end_matches(".rt").split('/').skip(1);
    let parts = parts.filter(|part| !["src", "lib", "main", "mod"].contains(part));
    let parts = parts.chain(owner).chain([name]);
    parts.collect::<Vec<_>>().join("::")
}

/// The functions that a call may mean: by the qualifier where it has one, else of the
/// same file, else of the same crate.
fn meant<'a>(all: &'a [Function], from: &Function, call: &Call) -> Vec<&'a Function> {
    let named = all.iter().filter(|function| function.name() == call.name);
    let named: Vec<&Function> = named.collect();
    let of_file = |function: &&&Function| function.file == from.file;
    let of_crate = |function: &&&Function| function.crate_name() == from.crate_name();
    let chosen: Vec<&Function> = match call.qualifier.as_deref() {
        Some("Self") => named.iter().filter(of_file).copied().collect(),
        // A type parameter: any type's.
        Some(parameter) if parameter.len() == 1 => {
            let methods = named.iter().filter(|function| function.owner.is_some());
            methods.copied().collect()
        }
        Some(qualifier) => {
            let name = format!("{qualifier}::{}", call.name);
            let qualified = named.iter().filter(|function| function.is_named(&name));
            qualified.copied().collect()
        }
        None if call.is_method => {
            let methods = named.iter().filter(|function| function.owner.is_some());
            methods.copied().collect()
        }
        None => named.iter().filter(of_file).copied().collect(),
    };
    match call.qualifier {
        None if chosen.is_empty() && !call.is_method => {
            named.iter().filter(of_crate).copied().collect()
        }
        _ => chosen,
    }
}

/// The functions, and all that they call, and so on, as long as `follow` lets.
pub fn reached<'a>(
    all: &'a [Function],
    from: &[&'a Function],
    follow: impl Fn(&Function, &Function) -> bool,
) -> Vec<&'a Function> {
    let mut found: Vec<&Function> = from.to_vec();
    let mut next = 0;
    while next < found.len() {
        let caller = found[next];
        for called in caller
            .calls
            .iter()
            .flat_map(|call| meant(all, caller, call))
        {
            let is_found = found.iter().any(|function| function.path == called.path);
            if !is_found && follow(caller, called) {
                found.push(called);
            }
        }
        next += 1;
    }
    found
}

/// The functions and the helpers that they have for themselves: those of their own
/// crate that are not public.
pub fn with_helpers<'a>(all: &'a [Function], from: &[&'a Function]) -> Vec<&'a Function> {
    reached(all, from, |caller, called| {
        !called.is_public && called.crate_name() == caller.crate_name()
    })
}

#[cfg(test)]
mod tests {
    use super::{functions, with_helpers};

    const CODE: &str = "\
// pub fn in_a_comment() {
impl<'a> Kind<'a> {
    // The numbers.
    pub fn numbers(self) -> [u8; 3]
        requires { mod' 1 ≡ 1 } // why
        ensures numbered {
            result ≡ record { first = 1 } }
        ensures small { result.first ≤ 9 }
    {
        let brace = b\"} \\\" pub fn in_a_string() {\";
        [brace[0], '}' as u8, helper(brace)]
    }

    pub(crate) fn helper(text: &[u8; 9]) -> u8 {
        text[1]
    }
}

#[unsafe(no_mangle)]
pub extern \"C\" fn call(
    book: &[u8],
    number: u64,
) -> Answer
    ensures { result ≡ answer }
{
    match number {
        _ => Kind::of(book).numbers(),
    }
}
";

    #[test]
    fn functions_are_read() {
        let functions = functions("crates/edge/src/kinds.rt", CODE);
        let read: Vec<_> = functions
            .iter()
            .map(|one| (one.path.as_str(), one.is_public, one.lines))
            .collect();
        let expected = [
            ("edge::kinds::Kind::numbers", true, (4, 12)),
            ("edge::kinds::Kind::helper", false, (14, 16)),
            ("edge::kinds::call", true, (20, 29)),
        ];
        assert_eq!(read, expected);
    }

    #[test]
    fn contracts_are_read() {
        let functions = functions("crates/edge/src/lib.rt", CODE);
        assert_eq!(functions[0].signature, "(self) -> [u8; 3]");
        let clauses = [
            "requires { mod' 1 ≡ 1 }",
            "ensures numbered { result ≡ record { first = 1 } }",
            "ensures small { result.first ≤ 9 }",
        ];
        assert_eq!(functions[0].clauses, clauses);
        assert_eq!(
            functions[2].signature,
            "(book: &[u8], number: u64) -> Answer"
        );
        assert_eq!(functions[2].clauses, ["ensures { result ≡ answer }"]);
    }

    #[test]
    fn types_that_a_function_is_for_are_read() {
        let code = "
pub fn first<F: Fn(usize) -> bool>(n: usize, test: F) -> bool { test(n) }
pub fn lent<'a>(text: &'a [u8]) {}
";
        let functions = functions("crates/edge/src/lib.rt", code);
        let read: Vec<_> = functions
            .iter()
            .map(|one| (one.kinds.as_str(), one.signature.as_str()))
            .collect();
        let expected = [
            ("<F: Fn(usize) -> bool>", "(n: usize, test: F) -> bool"),
            ("", "(text: &'a [u8])"),
        ];
        assert_eq!(read, expected);
    }

    #[test]
    fn what_a_trait_asks_is_read() {
        let code = "
pub trait Put: Copy {
    fn put(self, text: &mut [u8]) -> u8
        requires { room text.old }
        ensures { puts text.new result };
}

impl<'a> Put for Few<'a> {
    fn put(self, text: &mut [u8]) -> u8 {
        text[0]
    }
}

trait Hidden {
    fn hide(self) -> u8;
}
";
        let functions = functions("crates/edge/src/kinds.rt", code);
        let read: Vec<_> = functions
            .iter()
            .map(|one| (one.path.as_str(), one.is_public, one.for_trait.as_deref()))
            .collect();
        let expected = [
            ("edge::kinds::Put::put", true, None),
            ("edge::kinds::Few::put", false, Some("Put")),
            ("edge::kinds::Hidden::hide", false, None),
        ];
        assert_eq!(read, expected);
        let [put, ..] = &functions[..] else {
            panic!("nothing was read");
        };
        let clauses = [
            "requires { room text.old }",
            "ensures { puts text.new result }",
        ];
        assert_eq!(put.clauses, clauses);
        assert_eq!(put.parameters(), "(self, text: &mut [u8]");
        assert_eq!(put.lines, (3, 5));
    }

    #[test]
    fn helpers_are_those_of_the_crate_that_are_not_public() {
        let functions = functions("crates/edge/src/lib.rt", CODE);
        let helpers = with_helpers(&functions, &[&functions[0]]);
        let paths: Vec<&str> = helpers.iter().map(|one| one.path.as_str()).collect();
        assert_eq!(paths, ["edge::Kind::numbers", "edge::Kind::helper"]);
        assert_eq!(with_helpers(&functions, &[&functions[2]]).len(), 1);
    }
}
