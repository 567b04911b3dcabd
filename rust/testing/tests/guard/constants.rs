//! Guard of the header's constants: each is the number that stands elsewhere in the
//! repository, in a definition of the rules, in the code or in this package. That the
//! library answers them, and takes them and no others, `tests/c/constants.c` sees.

use fervolatro_testing::book::{
    Constraint, Contract, EnergyRow, Header, RegionEntry, Sections, UnitRow,
};
use fervolatro_testing::field::Field;
use fervolatro_testing::reference::spelled;
use fervolatro_testing::requests::edges;
use fervolatro_testing::requests::generate::Sizes;
use fervolatro_testing::{statement, NmasRow};

use crate::columns::{words_of, WORDS};
use crate::edge::{comments_removed, HEADER};
use crate::repository::{behind, without_groups, Repository};

/// What each constant's name begins with; it is left out here.
pub const FRONT: &str = "FERVOLATRO_";

const UNITS: &str = "crates/ground/specs/Units.antt";
const TABLE: &str = "crates/book/specs/Table.antt";
const BOOK: &str = "crates/book/specs/Header.antt";
const RULES: &str = "crates/rules/specs/Rules.antt";
const LINES: &str = "crates/lines/specs/Lines.antt";
const SETTLE: &str = "crates/settlement/specs/Settle.antt";
const LENT: &str = "crates/statement/specs/Lent.antt";
const BALANCE: &str = "crates/balance/specs/Balance.antt";
const CUTOFFS: &str = "crates/cutoffs/specs/Cutoffs.antt";
const READING: &str = "crates/parsing/specs/Parsing.antt";
const CALLS: &str = "crates/reading/specs/Calls.antt";
pub const ANSWERS: &str = "crates/answers/specs/Answers.antt";
const KINDS: &str = "crates/market/specs/Kinds.antt";
const DISPATCH: &str = "crates/dispatch/specs/Dispatch.antt";
const NMAS: &str = "crates/nmas_reading/specs/Reading.antt";
const NMAS_FILE: &str = "crates/nmas_file/specs/File.antt";
const NMAS_LENGTH: &str = "crates/nmas_file/proofs/Length.antt";
const MARKET: &str = "crates/market/src/lib.rt";
const MANIFEST: &str = "rust/Cargo.toml";

/// Files, and what stands there when the constants in braces have their values.
const PLACES: &[(&str, &str)] = &[
    (MANIFEST, "version = {VERSION}"),
    (
        MANIFEST,
        "version = \"{VERSION_MAJOR}.{VERSION_MINOR}.{VERSION_PATCH}\"",
    ),
    (
        TABLE,
        "refuse 5 {BOOK_HEADER_SIZE} {REGION_ENTRY_SIZE} (λ i. entry_ok",
    ),
    (TABLE, "entry_ok (B.entry i)) {REGION_ENTRIES}"),
    (
        BOOK,
        "units_from h = 84 + h.constraints * {CONSTRAINT_SIZE}",
    ),
    (
        BOOK,
        "energies_from h = 84 + h.constraints * 40 + h.units * {UNIT_ROW_SIZE}",
    ),
    (
        BOOK,
        "+ h.energies * {ENERGY_ROW_SIZE} + h.contracts * {CONTRACT_SIZE}",
    ),
    (BOOK, "leb h.constraints {MOST_CONSTRAINTS}"),
    (BOOK, "leb h.units {MOST_UNIT_ROWS}"),
    (BOOK, "leb h.energies {MOST_ENERGY_ROWS}"),
    (BOOK, "leb h.contracts {MOST_CONTRACTS}"),
    (
        READING,
        "line_from i = {STATEMENT_HEADER_SIZE} + i * {LINE_SIZE}",
    ),
    (UNITS, "most_lines = {MOST_LINES}"),
    (READING, "leb h.lines most_lines"),
    (UNITS, "money_limit = {LIMIT}"),
    (READING, "leb (nat_abs z) money_limit"),
    (RULES, "leb r.cost money_limit"),
    (RULES, "leb r.payment money_limit"),
    (DISPATCH, "id = u32_at s (i * {DISPATCH_ROW_SIZE})"),
    (UNITS, "price_limit = {MOST_PRICE}"),
    (DISPATCH, "leb r.price price_limit"),
    (DISPATCH, "enablement_limit = {MOST_ENABLEMENT}"),
    (DISPATCH, "leb r.enablement enablement_limit"),
    (DISPATCH, "product_limit = {MOST_PRODUCT}"),
    (
        DISPATCH,
        "leb (product_of (dispatch_row s i)) product_limit",
    ),
    (DISPATCH, "(i + 1)) money_limit"),
    (
        ANSWERS,
        "verdict_answer (Ok _) = record { refusal = {NOT_REFUSED};",
    ),
    (TABLE, "unless (leb 84 (length b)) {REFUSED_SHORT}"),
    (TABLE, "unless (book_marked b) {REFUSED_MARK}"),
    (TABLE, "unless (in_range (header_of b)) {REFUSED_RANGE}"),
    (
        TABLE,
        "unless (eqb (length b) (whole_length (header_of b))) {REFUSED_LENGTH}",
    ),
    (TABLE, "refuse {REFUSED_FIELD} 84 40 (λ i. constraint_ok"),
    (
        TABLE,
        "refuse {REFUSED_ORDER} 84 40 (rises_by constraint_below",
    ),
    (
        TABLE,
        "refuse {REFUSED_NO_CONSTRAINT} (units_from B.header) 20 (named_at",
    ),
    (TABLE, "refuse {REFUSED_FACTORS} 84 40 (factors_at"),
    (TABLE, "refuse {REFUSED_REGION_ENTRY} 24 12 (entry_has_sums"),
    (
        TABLE,
        "refuse {REFUSED_ZERO_TOTAL} 84 40 (constraint_divides",
    ),
    (TABLE, "check17 B l = at_test {REFUSED_NO_LOCKED} B (not"),
    (TABLE, "check18 B l = at_test {REFUSED_LOCKED} B (locks"),
    (
        SETTLE,
        "cond (unnamed rows locked) (refuses {REFUSED_NO_ACCOUNT} 0)",
    ),
    (
        SETTLE,
        "cond (any_over (lines_of public rows locked)) (refuses {REFUSED_LIMIT} 0)",
    ),
    (LENT, "(Ok (length xs)) (refused {REFUSED_BUFFER} 0)"),
    (
        CALLS,
        "(Ok (heading_at s)) (refused {REFUSED_NO_STATEMENT} 0)",
    ),
    (CALLS, "(refused {REFUSED_PAST_END} 0) (Ok (line_at"),
    (BALANCE, "answer_to B L past = refused {REFUSED_PAST_END} 0"),
    (CUTOFFS, "stage_at [] index = refused {REFUSED_PAST_END} 0"),
    (
        CUTOFFS,
        "cut_for B L past index = refused {REFUSED_PAST_END} 0",
    ),
    (
        DISPATCH,
        "at_record {REFUSED_DISPATCH_ROW} 0 {DISPATCH_ROW_SIZE} (first_bad",
    ),
    (
        NMAS,
        "rows_read (part rs t) = refused {REFUSED_NMAS_LINE} (length rs)",
    ),
    (
        NMAS,
        "row_read (part rs t) index = refused {REFUSED_NMAS_LINE} (length rs)",
    ),
    (NMAS, "numbered_row (past n) = refused {REFUSED_PAST_END} 0"),
    (
        NMAS_FILE,
        "cond (leb 3 payment_type) (refuses {REFUSED_PAST_END} 0)",
    ),
    (NMAS_LENGTH, "gives xs → length xs ≤ {LARGEST_NMAS}"),
    (
        LINES,
        "cond (raises r.service) {PART_CONTINGENCY_ASOE} {PART_CONTINGENCY_ACE}",
    ),
    (LINES, "fpp_line r p q = unit_line r {PART_UNIT_FPP} "),
    (LINES, "used_line r p q = unit_line r {PART_UNIT_USED} "),
    (LINES, "unused_line r p q = unit_line r {PART_UNIT_UNUSED} "),
    (
        LINES,
        "fpp_rest r x te ate = shared_line r.id {PART_RESIDUAL_FPP} ",
    ),
    (
        LINES,
        "used_rest r x te ate = shared_line r.id {PART_RESIDUAL_USED} ",
    ),
    (
        LINES,
        "unused_rest r x te ate = shared_line r.id {PART_RESIDUAL_UNUSED} ",
    ),
    (
        LINES,
        "ace_line id g x own total = shared_line id {PART_CONTRACT_ACE} ",
    ),
    (
        LINES,
        "asoe_line id g x own total = shared_line id {PART_CONTRACT_ASOE} ",
    ),
    (KINDS, "(eqb number {MODE_CONTINGENCY}) Contingency"),
    (KINDS, "(eqb number {MODE_FACTORED}) (Factored "),
    (KINDS, "(eqb number {MODE_DEFAULT}) Default "),
    (RULES, "leb {CONTRACT_ORDINARY} r.kind"),
    (RULES, "leb r.kind {CONTRACT_TEST}"),
];

/// A constant of the header: its name without the front, its value as it stands there,
/// without the letters that give it 64 bits, and how many enums begin before it.
pub struct Constant {
    pub name: String,
    pub value: String,
    group: usize,
}

/// Every constant of the header, `#define NAME VALUE` or `NAME = VALUE` of an enum.
pub fn constants(repository: &Repository) -> Vec<Constant> {
    let code = comments_removed(repository.text(HEADER));
    let groups = code.split("enum {").enumerate();
    let lines = groups.flat_map(|(group, text)| text.lines().map(move |line| (group, line)));
    let constants = lines.filter_map(|(group, line)| {
        let line = line.trim();
        let (name, value) = match line.strip_prefix("#define ") {
            Some(defined) => defined.split_once(' ')?,
            None => line.trim_end_matches(',').split_once(" = ")?,
        };
        Some(Constant {
            name: name.strip_prefix(FRONT)?.to_owned(),
            value: value.trim_end_matches("LL").to_owned(),
            group,
        })
    });
    constants.collect()
}

/// Constants of the header that are not what stands elsewhere, and those of which
/// nothing else speaks.
pub fn unlike_the_rules(repository: &Repository) -> Vec<String> {
    let constants = constants(repository);
    let places = places(&constants);
    let of_the_package = numbers_of_the_package().into_iter();
    let numbers: Vec<(String, i64, &str)> = of_the_package
        .map(|(name, number)| (name.to_owned(), number, "the package"))
        .chain(payment_types(repository))
        .chain(stages(repository))
        .collect();
    let mut complaints = Vec::new();
    for (file, text) in &places {
        complaints.extend(why_not_there(repository, file, text, &constants));
    }
    for (name, number, whose) in &numbers {
        let value = value_of(&constants, name);
        if value != number.to_string() {
            complaints.push(format!("{FRONT}{name} is {value}, {whose} has {number}"));
        }
    }
    let placed = places.iter().flat_map(|(_, text)| names_in(text));
    let compared: Vec<&str> = placed
        .chain(numbers.iter().map(|(name, ..)| name.as_str()))
        .collect();
    let names = constants.iter().map(|constant| constant.name.as_str());
    let free = names.filter(|name| !compared.contains(name));
    complaints.extend(free.map(|name| format!("nothing is compared with {FRONT}{name}")));
    complaints
}

/// The value of a constant; that of one that is not there is `missing`.
fn value_of<'a>(constants: &'a [Constant], name: &str) -> &'a str {
    let mut constants = constants.iter();
    let constant = constants.find(|constant| constant.name == name);
    constant.map_or("missing", |constant| &constant.value)
}

/// The constants that stand in braces: words of capitals.
fn names_in(text: &str) -> impl Iterator<Item = &str> {
    let parts = text.split('{').skip(1);
    let words = parts.filter_map(|part| Some(part.split_once('}')?.0));
    words.filter(|word| word.starts_with(|letter: char| letter.is_ascii_uppercase()))
}

fn why_not_there(
    repository: &Repository,
    file: &str,
    text: &str,
    constants: &[Constant],
) -> Option<String> {
    let mut wanted = text.to_owned();
    for name in names_in(text) {
        wanted = wanted.replace(&format!("{{{name}}}"), value_of(constants, name));
    }
    let names: Vec<String> = names_in(text)
        .map(|name| format!("{FRONT}{name}"))
        .collect();
    let is_there = stands_in(&without_groups(repository.text(file)), &wanted);
    (!is_there).then(|| format!("{}: {file} has no `{wanted}`", names.join(", ")))
}

/// Whether the words stand in a text, and a number at their end ends there.
fn stands_in(text: &str, words: &str) -> bool {
    let is_digit = |letter: char| letter.is_ascii_digit();
    let mut rests = behind(text, words);
    rests.any(|rest| !words.ends_with(is_digit) || !rest.starts_with(is_digit))
}

/// All places: those that are written down above, and those of services, regions, modes
/// and payment types, which have the names of the code and the order of the rules.
fn places(constants: &[Constant]) -> Vec<(&'static str, String)> {
    let written = PLACES.iter().map(|&(file, text)| (file, text.to_owned()));
    let mut places: Vec<(&str, String)> = written.collect();
    let kinds = [
        ("SERVICE_", "Service", "Service { number: ", " }"),
        ("REGION_", "Region", "Region { number: ", " }"),
        ("MODE_", "u8", "", ""),
        ("PAYMENT_TYPE_", "u8", "", ""),
    ];
    for (front, kind, before, after) in kinds {
        places.extend(group_of(constants, front).iter().map(|name| {
            let text = format!("pub const {name}: {kind} = {before}{{{front}{name}}}{after};");
            (MARKET, text)
        }));
    }
    let list = |front, between| {
        let names = group_of(constants, front);
        let names = names.iter().map(|name| format!("{{{front}{name}}}"));
        names.collect::<Vec<String>>().join(between)
    };
    let [services, regions] = ["SERVICE_", "REGION_"].map(|front| list(front, " ∷ "));
    places.push((KINDS, format!("service_numbers = {services} ∷ []")));
    places.push((KINDS, format!("region_numbers = {regions} ∷ []")));
    let bits = list("REGION_BIT_", " || eqb m ");
    places.push((READING, format!("one_bit m = eqb m {bits}\n")));
    places
}

/// The constants of the first enum that has only names with this front, without it.
fn group_of<'a>(constants: &'a [Constant], front: &str) -> Vec<&'a str> {
    let last = constants.iter().map(|constant| constant.group).max();
    let groups = (1..=last.unwrap_or(0)).map(|group| {
        let constants = constants.iter().filter(|constant| constant.group == group);
        let names = constants.map(|constant| constant.name.strip_prefix(front));
        names.collect::<Option<Vec<&str>>>()
    });
    groups.flatten().next().unwrap_or_default()
}

/// The payment types, which the definitions list by their words: the number of each is
/// its place there.
fn payment_types(repository: &Repository) -> impl Iterator<Item = (String, i64, &'static str)> {
    let words = words_of(repository, "payment_types").into_iter();
    let named = words.map(|word| format!("PAYMENT_TYPE_{word}"));
    named.zip(0..).map(|(name, number)| (name, number, WORDS))
}

/// The stages of rounding, each of which a definition numbers: `stage_number stage.Line = 1`.
fn stages(repository: &Repository) -> impl Iterator<Item = (String, i64, &'static str)> + use<'_> {
    let lines = repository.text(ANSWERS).lines();
    lines.filter_map(|line| {
        let (case, number) = line.strip_prefix("stage_number ")?.split_once(" = ")?;
        let name = case.trim_matches(['(', ')']).rsplit('.').next()?;
        let name = format!("STAGE_{}", name.to_uppercase());
        Some((name, number.trim().parse().ok()?, ANSWERS))
    })
}

/// What this package has for a constant: the sizes of its records, and the ends of its
/// fields' ranges.
fn numbers_of_the_package() -> Vec<(&'static str, i64)> {
    let most = Sizes::LARGEST;
    let sections = Sections::of(&largest_header());
    // Of a reconciliation file: one for each contract and region.
    let rows = most.contracts * sections.regions.count;
    let lines = highest(edges::STATEMENT_HEADER, 14);
    let sizes = [
        ("BOOK_HEADER_SIZE", Header::SIZE),
        ("REGION_ENTRY_SIZE", RegionEntry::SIZE),
        ("CONSTRAINT_SIZE", Constraint::SIZE),
        ("UNIT_ROW_SIZE", UnitRow::SIZE),
        ("ENERGY_ROW_SIZE", EnergyRow::SIZE),
        ("CONTRACT_SIZE", Contract::SIZE),
        ("REGION_ENTRIES", sections.regions.count),
        ("MOST_CONSTRAINTS", most.constraints),
        ("MOST_UNIT_ROWS", most.units),
        ("MOST_ENERGY_ROWS", most.energies),
        ("MOST_CONTRACTS", most.contracts),
        ("STATEMENT_HEADER_SIZE", statement::Header::SIZE),
        ("LINE_SIZE", statement::Line::SIZE),
        ("LARGEST_BOOK", sections.book_length()),
        ("MOST_NMAS_ROWS", rows),
        ("LARGEST_NMAS", rows * spelled(&longest_row()).len()),
    ];
    let mut numbers: Vec<(&str, i64)> = Vec::new();
    numbers.extend(sizes.map(|(name, size)| (name, size as i64)));
    let [header, line] = [statement::Header::SIZE, statement::Line::SIZE].map(|size| size as i64);
    numbers.push(("MOST_LINES", lines));
    numbers.push(("LARGEST_STATEMENT", header + lines * line));
    numbers.push(("LIMIT", highest(edges::LINE, 16)));
    numbers
}

/// A row of a reconciliation file whose line is the longest that is read: every number is
/// at the end of its range.
fn longest_row() -> NmasRow {
    let [money, factor] = [8, 16].map(|at| highest(edges::CONTRACT, at));
    let energy = highest(edges::ENERGY_ROW, 12);
    NmasRow {
        date: highest(edges::HEADER, 8),
        run: highest(edges::HEADER, 12),
        interval: highest(edges::HEADER, 6),
        account: highest(edges::ENERGY_ROW, 0),
        contract: highest(edges::CONTRACT, 0),
        factor,
        payment: money,
        recovery: -2 * money,
        own_ace: -energy,
        region_ace: -energy,
        own_asoe: energy,
        region_asoe: energy,
        by_ace: -money,
        by_asoe: -money,
        ..NmasRow::default()
    }
}

/// The header of a book of the most records.
fn largest_header() -> Header {
    let count = |records: usize| u16::try_from(records).expect("a count has 16 bits");
    let most = Sizes::LARGEST;
    Header {
        constraints: count(most.constraints),
        units: count(most.units),
        energies: count(most.energies),
        contracts: count(most.contracts),
        ..Header::default()
    }
}

/// The upper end of the field that stands there.
fn highest(fields: &[edges::Edged], at: usize) -> i64 {
    let there = fields.iter().filter(|field| field.at == at);
    there
        .map(|field| field.high)
        .max()
        .expect("a field stands there")
}
