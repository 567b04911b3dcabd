//! Guard of the edge's shape: the calls that are made from C and their answers, the
//! structs of `crates/answers`, are those of the header, parameter by parameter and field by field, in order and width. The C
//! tests see the values; this sees what no value shows, such as a refusal's number of
//! 32 bits with an upper half that happens to be 0.

use std::collections::BTreeSet;

use crate::rattle::{all_functions, Function};
use crate::repository::Repository;

pub const HEADER: &str = "include/fervolatro.h";
pub const ANSWERS: &str = "crates/answers/src/lib.rt";

/// Calls and answers that the header has otherwise than the code.
pub fn unlike_the_header(repository: &Repository) -> Vec<String> {
    let header = without_comments(repository.text(HEADER));
    let prototypes = prototypes(&header);
    let calls = calls(repository);
    let mut complaints = Vec::new();
    for prototype in &prototypes {
        match calls.iter().find(|call| call.name() == prototype.name) {
            Some(call) => {
                let why = why_unlike(&header, prototype, repository.text(ANSWERS), call);
                complaints.extend(why);
            }
            None => complaints.push(format!("the code has no call {}", prototype.name)),
        }
    }
    for call in &calls {
        if !prototypes.iter().any(|one| one.name == call.name()) {
            complaints.push(format!("{HEADER} has no call {}", call.name()));
        }
    }
    complaints
}

/// The functions that C calls, and all others that are public beside one in its file.
fn calls(repository: &Repository) -> Vec<Function> {
    let files = code(repository);
    let functions = all_functions(repository).into_iter();
    let calls = functions.filter(|function| function.is_public && files.contains(&function.file));
    calls.collect()
}

/// The files that have functions that C calls.
pub fn code(repository: &Repository) -> BTreeSet<String> {
    let functions = all_functions(repository).into_iter();
    let exported = functions.filter(|function| function.is_extern);
    exported.map(|function| function.file).collect()
}

/// The C tests that make every call, and how each of them names one.
const TRIED_IN: [(&str, &str); 3] = [
    ("tests/c/edge.c", "fervolatro_"),
    ("tests/c/stack.c", "fervolatro_"),
    ("tests/c/load.c", "FIND(loaded, "),
];

/// Calls of the header that a C test, which is to make every one, leaves out.
pub fn untried(repository: &Repository) -> Vec<String> {
    let header = without_comments(repository.text(HEADER));
    let mut complaints = Vec::new();
    for Prototype { name, .. } in prototypes(&header) {
        let call = name.trim_start_matches("fervolatro_");
        let files = TRIED_IN.iter().filter(|(file, front)| {
            let text = repository.text(file);
            let is_made = |end| text.contains(&format!("{front}{call}{end}"));
            !is_made('(') && !is_made(')')
        });
        complaints.extend(files.map(|(file, _)| format!("{file} does not call {name}")));
    }
    complaints
}

/// `answer name(parameters);` of the header, the parameters by their types.
struct Prototype<'a> {
    answer: &'a str,
    name: &'a str,
    parameters: Vec<&'a str>,
}

fn why_unlike(header: &str, of: &Prototype, answers: &str, call: &Function) -> Option<String> {
    let name = of.name;
    let signature = call.signature.split_once(" -> ");
    let (parameters, result) = signature.unwrap_or((&call.signature, "nothing"));
    let parameters = parameters_in_c(parameters);
    if of.parameters != parameters {
        return Some(format!(
            "{name} has {:?} in C, the code {parameters:?}",
            of.parameters
        ));
    }
    let (theirs, ours) = (
        fields_in_header(header, of.answer),
        fields_in_code(answers, result),
    );
    let is_same = theirs == ours && !ours.is_empty();
    (!is_same).then(|| format!("{name} answers {theirs:?} in C, the code {ours:?}"))
}

/// The header without its comments, white space made single.
fn without_comments(header: &str) -> String {
    let code = comments_removed(header);
    let words: Vec<&str> = code.split_whitespace().collect();
    words.join(" ")
}

/// The header without its comments.
pub fn comments_removed(header: &str) -> String {
    let parts = header.split("/*");
    let code = parts.map(|part| part.split_once("*/").map_or(part, |(_, code)| code));
    code.collect()
}

fn prototypes(header: &str) -> Vec<Prototype<'_>> {
    let statements = header.split(';').map(str::trim);
    let prototypes = statements.filter_map(|statement| {
        let (front, parameters) = statement.strip_suffix(')')?.split_once('(')?;
        let (answer, name) = front.split_once(' ')?;
        Some(Prototype {
            answer,
            name,
            parameters: parameters.split(", ").map(type_of).collect(),
        })
    });
    prototypes.collect()
}

/// The type of a parameter in C: all but its name.
fn type_of(parameter: &str) -> &str {
    parameter
        .trim_end_matches(|letter: char| letter.is_alphanumeric() || letter == '_')
        .trim_end()
}

/// What C has for the parameters of a call: a slice is a pointer and a length, also one
/// with a lifetime.
fn parameters_in_c(parameters: &str) -> Vec<&str> {
    let parameters = parameters.trim_matches(['(', ')']).split(", ");
    let kinds = parameters.filter_map(|parameter| parameter.split_once(": "));
    let in_c = kinds.flat_map(|(_, kind)| match kind {
        "&[u8]" | "&'a [u8]" => vec!["const uint8_t *", "size_t"],
        "&mut [u8]" => vec!["uint8_t *", "size_t"],
        number => vec![number_in_c(number)],
    });
    in_c.collect()
}

fn number_in_c(kind: &str) -> &str {
    match kind {
        "u32" => "uint32_t",
        "u64" => "uint64_t",
        "i64" => "int64_t",
        other => other,
    }
}

/// The fields of a struct, types and names, in order.
fn fields_in_header<'a>(header: &'a str, name: &str) -> Vec<(&'a str, &'a str)> {
    let body = header.split_once(&format!("}} {name};"));
    let body = body.and_then(|(before, _)| before.rsplit_once("typedef struct {"));
    let fields = body.map_or("", |(_, body)| body).split(';');
    fields
        .filter_map(|field| field.trim().split_once(' '))
        .collect()
}

/// The fields of a struct that is laid out as C's are: `#[repr(C)]` stands among what is
/// said right above it.
fn fields_in_code<'a>(code: &'a str, name: &str) -> Vec<(&'a str, &'a str)> {
    let body = code.split_once(&format!("\npub struct {name} {{"));
    let body = body.filter(|(before, _)| {
        let above = before.lines().rev();
        let mut above = above.take_while(|line| line.starts_with("#["));
        above.any(|line| line == "#[repr(C)]")
    });
    let body = body.and_then(|(_, after)| after.split_once('}'));
    let fields = body.map_or("", |(body, _)| body).split(',');
    let fields = fields.filter_map(|field| field.trim().strip_prefix("pub ")?.split_once(": "));
    fields
        .map(|(name, kind)| (number_in_c(kind), name_in_c(name)))
        .collect()
}

/// A field's name in C. There `type` is one; in the code it is a word of the language.
fn name_in_c(name: &str) -> &str {
    match name {
        "payment_type" => "type",
        other => other,
    }
}
