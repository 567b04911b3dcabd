//! Compares the library's check with the reference's on some hundred thousand books:
//! accepted ones of every size, every fault alone and two at once, every truncation,
//! turned bits, noise. A locked book is lent with most of them; `locked.rs` has the faults
//! of that one.

use fervolatro_testing::book::{Book, Sections};
use fervolatro_testing::books::{Encoded, Pair};
use fervolatro_testing::harness::report::shown;
use fervolatro_testing::harness::{
    constraint_over, every_mask, zero_total_over, Call, Family, Run, Units, Wanted, LIBRARY,
};
use fervolatro_testing::requests::damage::sparse_noise;
use fervolatro_testing::requests::edges::{self, Edged};
use fervolatro_testing::requests::faults::{self, Fault, Spot};
use fervolatro_testing::requests::generate::Sizes;
use fervolatro_testing::requests::random::Random;
use fervolatro_testing::requests::worked::{empty_book, worked_book};
use fervolatro_testing::{Books, Refusal};

/// Whole sizes that random draws seldom give, the largest legal book among them.
const CHOSEN_SIZES: [Sizes; 6] = [
    Sizes::LARGEST,
    sizes(64, 0, 1, 0),
    sizes(1, 600, 1, 0),
    sizes(64, 600, 1, 16),
    sizes(0, 0, 1_024, 0),
    sizes(0, 0, 5, 16),
];

const fn sizes(constraints: usize, units: usize, energies: usize, contracts: usize) -> Sizes {
    Sizes {
        constraints,
        units,
        energies,
        contracts,
    }
}

#[test]
fn library_and_reference_agree() {
    let accepted = every_mask(constraint_over, 1_000);
    let refused = every_mask(zero_total_over, 20);
    Run::over(&FAMILIES, LIBRARY, Units::Own).finish(&Wanted {
        inputs: 600_000,
        answers: &[("check", &[0, 1, 2, 3, 4, 5, 6, 7, 8, 9, 10, 17, 18])],
        seen: accepted.chain(refused).collect(),
    });
}

const FAMILIES: [Family; 16] = [
    ("accepted books", accepted_books),
    ("dates", dates),
    ("header edges", header_edges),
    ("counts with the length they give", counts_with_their_length),
    ("field edges", field_edges),
    ("modes", modes),
    ("single faults", single_faults),
    ("faults of large books", faults_of_large_books),
    ("two faults", two_faults),
    ("two fields", two_fields),
    ("truncations", truncations),
    ("every bit of small books", every_bit),
    ("random bits of large books", random_bits),
    ("noise", noise),
    ("noise after a right header", noise_after_header),
    ("one record of noise", one_record_of_noise),
];

/// Asks both, and gives the number they agree on, 0 for an accepted book.
fn compare<'b>(run: &mut Run, books: impl Into<Books<'b>>) -> u8 {
    run.input();
    let books = books.into();
    let answer = run.compare(Call::Check, books);
    if let Err(Refusal { number: 10, place }) = answer {
        see_zero_total(run, books.book, place);
    }
    answer.map_or_else(|refusal| refusal.number, |_| 0)
}

/// Counts the regions of the constraint that 10 is at; behind the constraints it is at a
/// contract.
fn see_zero_total(run: &mut Run, bytes: &[u8], place: usize) {
    let book = Book::decode(bytes);
    let section = Sections::of(&book.header).constraints;
    let mut constraints = (0..).zip(&book.constraints);
    if let Some((_, constraint)) = constraints.find(|(at, _)| section.offset(*at) == place) {
        run.see(zero_total_over(constraint.regions));
    }
}

/// Compares a book that has to be accepted.
fn compare_accepted(run: &mut Run, pair: &Pair) {
    let bytes = pair.encode();
    let number = compare(run, &bytes);
    assert_eq!(number, 0, "not accepted: {}", shown(&bytes));
    run.see_masks(&pair.book);
}

fn compare_at_edges(run: &mut Run, bytes: &mut Encoded, record: usize, fields: &[Edged]) {
    let Encoded { book, locked } = bytes;
    edges::each(book, record, fields, |book| {
        compare(run, Books::of(book, locked));
    });
}

fn small_and_chosen_sizes(run: &mut Run, small: usize) -> Vec<Sizes> {
    let mut drawn = |_| Sizes::draw(&mut run.random, Sizes::SMALL);
    (0..small).map(&mut drawn).chain(CHOSEN_SIZES).collect()
}

fn accepted_books(run: &mut Run) {
    for (count, most) in [(30_000, Sizes::SMALL), (3_000, Sizes::LARGEST)] {
        for _ in 0..count {
            let pair = run.accepted(most);
            compare_accepted(run, &pair);
        }
    }
    for sizes in CHOSEN_SIZES.repeat(8) {
        let pair = run.accepted_of(sizes);
        compare_accepted(run, &pair);
    }
    assert_eq!(run.accepted_of(Sizes::LARGEST).encode().book.len(), 39_796);
}

/// Every day from 2024 to 2101, and days and months that there are not.
fn dates(run: &mut Run) {
    let mut bytes = empty_book().encode();
    for year in 2024..=2101 {
        for month in 0..=13 {
            for day in 0..=32 {
                let date: u32 = year * 10_000 + month * 100 + day;
                bytes[8..12].copy_from_slice(&date.to_le_bytes());
                compare(run, &bytes);
            }
        }
    }
}

fn header_edges(run: &mut Run) {
    for sizes in small_and_chosen_sizes(run, 40) {
        let pair = run.accepted_of(sizes);
        let mut bytes = run.lent(&pair);
        compare_at_edges(run, &mut bytes, 0, edges::HEADER);
    }
}

/// Counts at and past their ends, with as many zero bytes as they ask for.
fn counts_with_their_length(run: &mut Run) {
    let mut book = empty_book();
    for most in [64, 65, 600, 601, 1_024, 1_025, 16, 17] {
        for section in 0..4 {
            let mut counts = [0; 4];
            counts[section] = most;
            book.constraints.resize_with(counts[0], Default::default);
            book.units.resize_with(counts[1], Default::default);
            book.energies.resize_with(counts[2], Default::default);
            book.contracts.resize_with(counts[3], Default::default);
            compare(run, &book.encode());
        }
    }
}

/// Every field of the first, the middle and the last record of each kind, just
/// inside and just past both ends of its range.
fn field_edges(run: &mut Run) {
    for sizes in small_and_chosen_sizes(run, 200) {
        let pair = run.accepted_of(sizes);
        let mut bytes = run.lent(&pair);
        for (section, fields) in edges::by_section(&Sections::of(&pair.book.counted_header())) {
            for spot in Spot::ALL {
                if let Some(index) = spot.index(section.count) {
                    compare_at_edges(run, &mut bytes, section.offset(index), fields);
                }
            }
        }
    }
}

/// Every service with every mode, each of the five fields that a mode may want
/// 0 being 0 or not.
fn modes(run: &mut Run) {
    let worked = Pair::alone(worked_book());
    for pair in [worked, run.accepted_of(sizes(5, 6, 6, 2))] {
        let locked = pair.encode().locked;
        let base = pair.book;
        let mut book = base.clone();
        let mut bytes = Vec::new();
        for spot in Spot::ALL {
            let index = spot
                .index(base.constraints.len())
                .expect("it has constraints");
            for pattern in 0..12 * 5 * 32 {
                let (service, mode, filled) = (pattern / 32 % 12, pattern / 32 / 12, pattern % 32);
                let constraint = &mut book.constraints[index];
                constraint.service = service as u8;
                constraint.mode = mode as u8;
                constraint.price = filled & 1;
                constraint.rcr = filled >> 1 & 1;
                constraint.usage = filled >> 2 & 1;
                constraint.rcf = (filled >> 3 & 1) as i32;
                constraint.drcf = -((filled >> 4 & 1) as i32);
                book.encode_into(&mut bytes);
                compare(run, Books::of(&bytes, &locked));
            }
            book.constraints[index] = base.constraints[index];
        }
    }
}

/// Each fault alone, in the first, the middle and the last record that can have
/// it. Each is seen to do what it is made for.
fn single_faults(run: &mut Run) {
    let mut bases: Vec<Pair> = (0..120).map(|_| run.accepted(Sizes::SMALL)).collect();
    bases.extend((0..30).map(|_| run.accepted_of(sizes(7, 14, 12, 3))));
    for fault in faults::all() {
        for spot in Spot::ALL {
            let seen = bases
                .iter()
                .filter(|base| fault_of(run, base, fault, spot) == fault.gives)
                .count();
            assert!(seen > 0, "'{}' never gave {}", fault.name, fault.gives);
        }
    }
}

/// Compares the base with the fault, and gives the number answered.
fn fault_of(run: &mut Run, base: &Pair, fault: &Fault, spot: Spot) -> u8 {
    let mut pair = base.clone();
    (fault.apply)(&mut pair.book, spot);
    compare(run, &pair.encode())
}

fn faults_of_large_books(run: &mut Run) {
    for size in [Sizes::LARGEST, sizes(40, 300, 500, 9)] {
        let base = run.accepted_of(size);
        for fault in faults::all() {
            for spot in Spot::ALL {
                fault_of(run, &base, fault, spot);
            }
        }
    }
}

fn two_faults(run: &mut Run) {
    run.each_two_faults(12, |run, _, books| {
        compare(run, books);
    });
}

/// Two fields at their edges at once, sometimes after a fault of the records.
fn two_fields(run: &mut Run) {
    let faults: Vec<&Fault> = faults::all().collect();
    for _ in 0..80_000 {
        let mut pair = run.accepted(Sizes::SMALL);
        if run.random.coin() {
            let fault = *run.random.pick(&faults);
            (fault.apply)(&mut pair.book, *run.random.pick(&Spot::ALL));
        }
        let mut bytes = run.lent(&pair);
        let sections = Sections::of(&pair.book.counted_header());
        set_random_field(&mut run.random, &mut bytes.book, &sections);
        set_random_field(&mut run.random, &mut bytes.book, &sections);
        compare(run, &bytes);
    }
}

/// Sets a field of some record to one of its edges.
fn set_random_field(random: &mut Random, bytes: &mut [u8], sections: &Sections) {
    let (section, fields) = *random.pick(&edges::by_section(sections));
    if section.count > 0 {
        let record = section.offset(random.below(section.count));
        let field = *random.pick(fields);
        field.set(bytes, record, *random.pick(&field.values()));
    }
}

/// Every length from 0 to a few bytes past the whole.
fn truncations(run: &mut Run) {
    let largest = run.accepted_of(Sizes::LARGEST);
    let small = run.accepted_of(sizes(3, 4, 5, 2));
    for pair in [Pair::alone(worked_book()), small, largest] {
        let Encoded { mut book, locked } = pair.encode();
        let whole = book.len();
        book.extend([0; 40]);
        for length in 0..=book.len() {
            let number = compare(run, Books::of(&book[..length], &locked));
            assert_eq!(number == 0, length == whole, "length {length} of {whole}");
        }
    }
}

fn every_bit(run: &mut Run) {
    let small = run.accepted_of(sizes(3, 4, 5, 2));
    let by_themselves = [empty_book(), worked_book()].map(Pair::alone);
    for pair in by_themselves.into_iter().chain([small]) {
        let Encoded { mut book, locked } = pair.encode();
        let bits = 0..8 * book.len();
        run.each_turned_bit(&mut book, bits, |run, book| {
            compare(run, Books::of(book, &locked));
        });
    }
}

fn random_bits(run: &mut Run) {
    for size in CHOSEN_SIZES {
        let Encoded { mut book, locked } = run.accepted_of(size).encode();
        let bits = run.bits_of(&book, 3_000);
        run.each_turned_bit(&mut book, bits, |run, book| {
            compare(run, Books::of(book, &locked));
        });
    }
}

fn noise(run: &mut Run) {
    let mut bytes = vec![0; 45_000];
    for round in 0..30_000 {
        let most = if round % 100 == 0 { bytes.len() } else { 300 };
        let length = run.random.below(most + 1);
        run.random.fill(&mut bytes[..length]);
        compare(run, &bytes[..length]);
    }
}

/// A right header and the right length; noise from some record on.
fn noise_after_header(run: &mut Run) {
    for _ in 0..20_000 {
        let pair = run.accepted(Sizes::SMALL);
        let mut bytes = run.lent(&pair);
        let start = 24 + run.random.below(bytes.book.len() - 23);
        sparse_noise(&mut run.random, &mut bytes.book[start..]);
        compare(run, &bytes);
    }
}

/// One record replaced: by noise, by zeros, or by another of its kind.
fn one_record_of_noise(run: &mut Run) {
    for _ in 0..20_000 {
        let pair = run.accepted(Sizes::SMALL);
        let mut bytes = run.lent(&pair);
        let sections = Sections::of(&pair.book.counted_header());
        let (section, _) = *run.random.pick(&edges::by_section(&sections));
        if section.count == 0 {
            continue;
        }
        let record = section.offset(run.random.below(section.count));
        let other = section.offset(run.random.below(section.count));
        let replaced = record..record + section.record_size;
        match run.random.below(3) {
            0 => run.random.fill(&mut bytes.book[replaced]),
            1 => bytes.book[replaced].fill(0),
            _ => {
                let range = other..other + section.record_size;
                bytes.book.copy_within(range, record);
            }
        }
        compare(run, &bytes);
    }
}
