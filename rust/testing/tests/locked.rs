//! Compares the library with the reference, and the fast version with it, on pairs of
//! books: contracts of kind 2 settled by locked books of every size, whose accounts and
//! energies are others; every cause of 17 and 18; noise in the second slice, with and
//! without such a contract. Each pair is asked for its check, for statements and their
//! lengths, and for the balance of every pool. A run has to have seen each sort.

use fervolatro_testing::book::{Book, EnergyRow, Sections};
use fervolatro_testing::books::{has_test, Books, Encoded, Pair};
use fervolatro_testing::harness::report::shown;
use fervolatro_testing::harness::{
    asked_of, Answer, Call, Family, Run, Side, Units, Wanted, FAST, LIBRARY,
};
use fervolatro_testing::reference;
use fervolatro_testing::requests::accounts::{named, spread, Holding};
use fervolatro_testing::requests::damage::{sparse_noise, turn_bit};
use fervolatro_testing::requests::edges;
use fervolatro_testing::requests::faults::{self, Fault, Spot};
use fervolatro_testing::requests::generate::Sizes;
use fervolatro_testing::requests::locked::{regions_of_tests, MISFITS};

#[test]
fn library_and_reference_agree() {
    agree(LIBRARY);
}

#[test]
fn fast_and_reference_agree() {
    agree(FAST);
}

fn agree(tested: Side) {
    Run::over(&FAMILIES, tested, Units::Either).finish(&Wanted {
        inputs: 60_000,
        answers: &[
            ("check", &[0, 1, 2, 3, 4, 5, 6, 7, 8, 9, 10, 17, 18]),
            ("length", &[0, 1, 2, 3, 4, 5, 6, 7, 8, 9, 10, 11, 17, 18]),
            (
                "statement",
                &[0, 1, 2, 3, 4, 5, 6, 7, 8, 9, 10, 11, 13, 17, 18],
            ),
            ("balance", &[0, 1, 2, 3, 4, 5, 6, 7, 8, 9, 10, 15, 17, 18]),
        ],
        seen: wanted(),
    });
}

const FAMILIES: [Family; 17] = [
    ("small pairs", |run| accepted(run, 8_000, Sizes::SMALL)),
    ("medium pairs", |run| accepted(run, 1_500, Sizes::MEDIUM)),
    ("large pairs", |run| accepted(run, 12, Sizes::LARGEST)),
    ("halves", halves),
    ("a locked account in every region", every_region),
    ("the same bytes twice", same_bytes),
    ("faults of the current book", current_faults),
    ("no locked book", no_locked_book),
    ("faults of the locked book", locked_faults),
    ("edges of the locked book", locked_edges),
    ("lengths of the locked book", locked_lengths),
    ("bits of the locked book", locked_bits),
    ("another date, interval or run", misfits),
    ("noise for a locked book", noise),
    ("no energy in the locked book", no_locked_energy),
    ("no energy in the current book", no_current_energy),
    ("what is not read", not_read),
];

// What has to be seen.

const PAIRS: &str = "accepted pairs with a contract of kind 2";
const SAME_RUN: &str = "the same run";
const EARLIER_RUN: &str = "an earlier run";
const SAME_BYTES: &str = "the same bytes twice";
const BEFORE_10: [&str; 2] = ["17 before 10", "18 before 10"];
const FIRST_OF_TWO: [&str; 2] = ["17 at the first of two", "18 at the first of two"];
const LOCKED_TOTAL: &str = "10 by a locked total";
const CURRENT_TOTAL: &str = "no energy in the current book for a contract of kind 2";
const NOISE: &str = "noise that is read";
const UNREAD_NOISE: &str = "noise that is not read";
const UNREAD_ACCOUNT: &str = "account of a locked book that is not read";

fn locked_fails(number: u8) -> String {
    format!("locked book fails check {number}")
}

/// What the check of a locked book by itself would give, which nobody asks.
fn locked_alone(number: u8) -> String {
    format!("locked book, by itself {number}")
}

/// What the two books have of an account.
fn account_with(current: Holding, locked: Holding) -> String {
    format!("account with {current:?}, in the locked book {locked:?}")
}

fn wanted() -> Vec<(String, u64)> {
    let at_least = |fewest: u64| move |what: &str| (what.to_owned(), fewest);
    let mut wanted: Vec<(String, u64)> = [PAIRS].map(at_least(10_000)).to_vec();
    wanted.extend([SAME_RUN, EARLIER_RUN, SAME_BYTES].map(at_least(1_000)));
    wanted.extend([NOISE, UNREAD_NOISE, UNREAD_ACCOUNT].map(at_least(1_000)));
    wanted.extend([LOCKED_TOTAL, CURRENT_TOTAL].map(at_least(500)));
    wanted.extend(BEFORE_10.into_iter().chain(FIRST_OF_TWO).map(at_least(100)));
    wanted.extend(MISFITS.map(|misfit| (misfit.name.to_owned(), 1_000)));
    wanted.extend((1..=9).map(|number| (locked_fails(number), 100)));
    wanted.extend([0, 10, 17].map(|number| (locked_alone(number), 300)));
    for locked in Holding::ALL {
        wanted.push((account_with(Holding::Nothing, locked), 20));
        wanted.push((account_with(Holding::EnergyOnly, locked), 20));
        wanted.push((account_with(Holding::UnitsOnly, locked), 20));
    }
    wanted
}

// What is compared.

/// Compares everything of a pair, and gives the number of the check, 0 if the book is
/// accepted. The account is one that is drawn from the books as they were.
fn compare(run: &mut Run, pair: &Pair, bytes: &Encoded) -> u8 {
    run.input();
    let check = run.compare(Call::Check, bytes);
    let account = run.some_account(pair);
    compare_account(run, bytes, account);
    compare_balances(run, bytes);
    check.map_or_else(|refusal| refusal.number, |_| 0)
}

fn compare_account(run: &mut Run, bytes: &Encoded, account: u32) {
    let room = run.some_room(bytes, account, 1_000);
    let _ = run.compare(Call::Statement { account, room }, bytes);
}

/// Every pool, and numbers that none has.
fn compare_balances(run: &mut Run, bytes: &Encoded) {
    let balances = reference::balances(bytes);
    let count = balances.as_ref().map_or(1, |balances| balances.count());
    for pool in (0..=count).chain([u64::MAX]) {
        let balance = balances.as_ref().map_err(|&refusal| refusal);
        let balance = balance.and_then(|balances| balances.of(pool));
        run.expect(Call::Balance { pool }, bytes, balance.map(Answer::Balance));
    }
}

/// Compares a pair that has to be accepted, with every account of small books and some of
/// large ones.
fn compare_accepted(run: &mut Run, pair: &Pair) {
    let bytes = pair.encode();
    let number = compare(run, pair, &bytes);
    assert_eq!(number, 0, "not accepted: {}", shown(&bytes));
    let accounts = asked_of(pair);
    let step = accounts.len().div_ceil(40);
    for &account in accounts.iter().step_by(step) {
        compare_account(run, &bytes, account);
        see_account(run, pair, account);
    }
    see_accepted(run, pair, &bytes);
}

fn see_account(run: &mut Run, pair: &Pair, account: u32) {
    let mut holdings = pair.read().map(|book| Holding::of(book, account));
    if let (Some(current), Some(locked)) = (holdings.next(), holdings.next()) {
        run.see(account_with(current, locked));
    }
}

/// Counts what there is about an accepted pair.
fn see_accepted(run: &mut Run, pair: &Pair, bytes: &Encoded) {
    let Some(locked) = pair.locked.as_ref().filter(|_| has_test(&pair.book)) else {
        return;
    };
    run.see(PAIRS);
    let is_same = locked.header.run == pair.book.header.run;
    run.see(if is_same { SAME_RUN } else { EARLIER_RUN });
    if bytes.locked == bytes.book {
        run.see(SAME_BYTES);
    }
    let by_itself = reference::check(&bytes.locked);
    run.see(locked_alone(by_itself.map_or_else(|no| no.number, |()| 0)));
    let benefits = |region: &usize| regions_of_tests(&pair.book) >> region & 1 == 1;
    let mut benefiting = (0..5).filter(benefits);
    if benefiting.any(|region| lacks_energy(&pair.book, region)) {
        run.see(CURRENT_TOTAL);
    }
}

fn lacks_energy(book: &Book, region: usize) -> bool {
    book.regions[region].ace == 0 || book.regions[region].asoe == 0
}

/// Compares a pair of which the locked book is refused, or none is lent: 17 or 18.
fn compare_refused(run: &mut Run, pair: &Pair, bytes: &Encoded, number: u8) {
    let given = compare(run, pair, bytes);
    assert_eq!(given, number, "{}", shown(bytes));
    let at = usize::from(number == 18);
    if zero_totals(&pair.book) {
        run.see(BEFORE_10[at]);
    }
    let tests = pair.book.contracts.iter().filter(|of| of.kind == 2);
    if tests.count() > 1 {
        run.see(FIRST_OF_TWO[at]);
    }
}

/// Whether check 10 would refuse the book, settled by its own energies throughout.
fn zero_totals(book: &Book) -> bool {
    let bytes = book.encode();
    reference::check(Books::of(&bytes, &bytes)).is_err_and(|no| no.number == 10)
}

// Pairs.

/// A pair with a contract of kind 2, with up to so many records of each kind.
fn with_test(run: &mut Run, most: Sizes) -> Pair {
    loop {
        let pair = run.accepted(most);
        if has_test(&pair.book) {
            return pair;
        }
    }
}

/// The locked book, for changes.
fn locked_of(pair: &mut Pair) -> &mut Book {
    pair.locked.as_mut().expect("it has one")
}

/// Now and then takes the energy from what the current book divides by.
fn silence_at_times(run: &mut Run, pair: &mut Pair) {
    if run.random.below(4) == 0 {
        let spot = *run.random.pick(&Spot::ALL);
        let silences = faults::all().filter(|fault| fault.gives == 10);
        let silences: Vec<&Fault> = silences.collect();
        (run.random.pick(&silences).apply)(&mut pair.book, spot);
    }
}

fn accepted(run: &mut Run, times: usize, most: Sizes) {
    for _ in 0..times {
        let pair = with_test(run, most);
        compare_accepted(run, &pair);
    }
}

fn halves(run: &mut Run) {
    for _ in 0..1_500 {
        let pair = run.of_halves();
        compare_accepted(run, &pair);
    }
}

/// Also one that the current book does not have.
fn every_region(run: &mut Run) {
    for _ in 0..500 {
        let mut pair = with_test(run, Sizes::SMALL);
        let account = run.some_account(&pair).max(1);
        spread(&mut run.random, locked_of(&mut pair), account);
        let other = run.random.between(1, 1 << 30) as u32;
        spread(&mut run.random, locked_of(&mut pair), other);
        compare_accepted(run, &pair);
    }
}

fn same_bytes(run: &mut Run) {
    for _ in 0..1_500 {
        let mut pair = with_test(run, Sizes::SMALL);
        pair.locked = Some(pair.book.clone());
        compare_accepted(run, &pair);
    }
}

/// Each fault in the first, the middle and the last record that can have it, fields of the
/// header and lengths: 1 to 9 come first, whatever is wrong with the locked book.
fn current_faults(run: &mut Run) {
    for fault in faults::all() {
        for spot in Spot::ALL.repeat(5) {
            let mut pair = with_test(run, Sizes::SMALL);
            (fault.apply)(&mut pair.book, spot);
            compare_wrong(run, &pair, &pair.book.encode());
        }
    }
    let pair = with_test(run, Sizes::SMALL);
    let mut book = pair.book.encode();
    edges::each(&mut book, 0, edges::HEADER, |book| {
        compare_wrong(run, &pair, book);
    });
    for length in 0..book.len() {
        compare_wrong(run, &pair, &book[..length]);
    }
}

/// Compares these bytes of the current book with a locked one that is refused.
fn compare_wrong(run: &mut Run, pair: &Pair, book: &[u8]) {
    let (book, locked) = (book.to_vec(), wrong_locked(run, pair));
    compare(run, pair, &Encoded { book, locked });
}

/// None, noise, or a locked book of another date, interval or run.
fn wrong_locked(run: &mut Run, pair: &Pair) -> Vec<u8> {
    let mut locked = pair.locked.clone().expect("it has one");
    match run.random.below(3) {
        0 => Vec::new(),
        1 => some_noise(run),
        _ => {
            let misfit = run.random.pick(&MISFITS);
            (misfit.apply)(&mut run.random, &mut locked, &pair.book);
            locked.encode()
        }
    }
}

fn no_locked_book(run: &mut Run) {
    for _ in 0..4_000 {
        let mut pair = with_test(run, Sizes::SMALL);
        silence_at_times(run, &mut pair);
        pair.locked = None;
        compare_refused(run, &pair, &pair.encode(), 17);
    }
}

/// Compares a pair whose locked book was damaged: what that fails by itself is counted,
/// and is 18.
fn compare_damaged(run: &mut Run, pair: &Pair, bytes: &Encoded) {
    match reference::check(&bytes.locked) {
        Err(refusal) if refusal.number <= 9 && !bytes.locked.is_empty() => {
            run.see(locked_fails(refusal.number));
            compare_refused(run, pair, bytes, 18);
        }
        _ => {
            compare(run, pair, bytes);
        }
    }
}

/// Each fault in the first, the middle and the last record that can have it, at times with
/// a total of 0 in the current book.
fn locked_faults(run: &mut Run) {
    for fault in faults::all() {
        for spot in Spot::ALL.repeat(20) {
            let mut pair = with_test(run, Sizes::SMALL);
            silence_at_times(run, &mut pair);
            (fault.apply)(locked_of(&mut pair), spot);
            compare_damaged(run, &pair, &pair.encode());
        }
    }
}

/// Every field of the header and of the first and the last record of each kind, just
/// inside and just past both ends of its range.
fn locked_edges(run: &mut Run) {
    for _ in 0..12 {
        let mut pair = with_test(run, Sizes::SMALL);
        let sections = Sections::of(&locked_of(&mut pair).counted_header());
        let header = [(0, edges::HEADER)].into_iter();
        let records = edges::by_section(&sections).into_iter();
        let records = records.flat_map(|(section, fields)| {
            let spots = [Spot::First, Spot::Last].into_iter();
            let found = spots.filter_map(move |spot| spot.index(section.count));
            found.map(move |index| (section.offset(index), fields))
        });
        let Encoded { book, mut locked } = pair.encode();
        for (record, fields) in header.chain(records) {
            edges::each(&mut locked, record, fields, |locked| {
                let (book, locked) = (book.clone(), locked.to_vec());
                compare_damaged(run, &pair, &Encoded { book, locked });
            });
        }
    }
}

/// Every length from 1 to a few bytes past the whole.
fn locked_lengths(run: &mut Run) {
    for _ in 0..6 {
        let pair = with_test(run, Sizes::SMALL);
        let whole = pair.encode();
        for length in 1..whole.locked.len() + 8 {
            let mut bytes = whole.clone();
            bytes.locked.resize(length, 0);
            compare_damaged(run, &pair, &bytes);
        }
    }
}

fn locked_bits(run: &mut Run) {
    for _ in 0..5_000 {
        let pair = with_test(run, Sizes::SMALL);
        let mut bytes = pair.encode();
        let bit = run.random.below(8 * bytes.locked.len());
        turn_bit(&mut bytes.locked, bit);
        compare_damaged(run, &pair, &bytes);
    }
}

fn misfits(run: &mut Run) {
    for misfit in MISFITS.iter().cycle().take(6_000) {
        let mut pair = with_test(run, Sizes::SMALL);
        // So that there is a later one.
        pair.book.header.run = pair.book.header.run.min(98);
        silence_at_times(run, &mut pair);
        let locked = pair.locked.as_mut().expect("it has one");
        (misfit.apply)(&mut run.random, locked, &pair.book);
        run.see(misfit.name);
        compare_refused(run, &pair, &pair.encode(), 18);
    }
}

/// Any bytes.
fn some_noise(run: &mut Run) -> Vec<u8> {
    let most = *run.random.pick(&[4, 100, 300, 2_000]);
    let mut bytes = vec![0; 1 + run.random.below(most)];
    sparse_noise(&mut run.random, &mut bytes);
    bytes
}

/// Where a contract of kind 2 stands: noise from the front on, or from somewhere behind
/// the header.
fn noise(run: &mut Run) {
    for _ in 0..3_000 {
        let pair = with_test(run, Sizes::SMALL);
        let mut bytes = pair.encode();
        if run.random.coin() {
            bytes.locked = some_noise(run);
        } else {
            let start = 24 + run.random.below(bytes.locked.len() - 23);
            sparse_noise(&mut run.random, &mut bytes.locked[start..]);
        }
        run.see(NOISE);
        compare_damaged(run, &pair, &bytes);
    }
}

/// The locked book has no ACE or no ASOE in a region that a contract of kind 2 benefits.
fn no_locked_energy(run: &mut Run) {
    const QUIET: [fn(&mut EnergyRow); 2] = [
        |row| (row.ace, row.residual_ace) = (0, 0),
        |row| (row.asoe, row.residual_asoe) = (0, 0),
    ];
    for round in 0..2_000 {
        let mut pair = with_test(run, Sizes::SMALL);
        let regions = regions_of_tests(&pair.book);
        let benefiting: Vec<u8> = (0..5).filter(|of| regions >> of & 1 == 1).collect();
        let region = *run.random.pick(&benefiting);
        let locked = locked_of(&mut pair);
        let rows = locked.energies.iter_mut();
        rows.filter(|row| row.region == region)
            .for_each(QUIET[round % 2]);
        locked.total_regions();
        let number = compare(run, &pair, &pair.encode());
        assert_eq!(number, 10, "{}", shown(&pair.encode()));
        run.see(LOCKED_TOTAL);
    }
}

/// A contract of kind 2 benefits a region where the current book has no energy, and the
/// locked one has.
fn no_current_energy(run: &mut Run) {
    for _ in 0..4_000 {
        let mut book = with_test(run, Sizes::SMALL).book;
        let Some(empty) = (0..5).find(|&region| lacks_energy(&book, region)) else {
            continue;
        };
        let tests = book.contracts.iter_mut().filter(|of| of.kind == 2);
        for contract in tests {
            contract.factors = [0; 5];
            contract.factors[empty] = 1_000_000;
        }
        let pair = run.paired(book, Sizes::SMALL);
        compare_accepted(run, &pair);
    }
}

/// Where no contract of kind 2 stands, each of several second slices gives what none at
/// all gives: a locked book, one that is not fit, noise. An account that only such a book
/// names is not there.
fn not_read(run: &mut Run) {
    for _ in 0..2_500 {
        let mut pair = run.accepted(Sizes::SMALL);
        pair.book.contracts.iter_mut().for_each(|of| of.kind = 1);
        silence_at_times(run, &mut pair);
        let alone = Pair::alone(pair.book.clone());
        let mut bytes = alone.encode();
        let number = compare(run, &alone, &bytes);
        let locked = pair.locked.iter().map(Book::encode);
        for slice in locked.chain([some_noise(run), bytes.book.clone()]) {
            bytes.locked = slice;
            run.see(UNREAD_NOISE);
            assert_eq!(compare(run, &alone, &bytes), number, "{}", shown(&bytes));
            compare_unread_accounts(run, &pair, &bytes);
        }
    }
}

/// The accounts that only the locked book has.
fn compare_unread_accounts(run: &mut Run, pair: &Pair, bytes: &Encoded) {
    let known = named(&pair.book);
    let others = pair.locked.iter().flat_map(named);
    for account in others.filter(|of| !known.contains(of)).take(2) {
        let given = run.compare(Call::Length { account }, bytes);
        assert!(given.is_err(), "account {account}, {}", shown(bytes));
        run.see(UNREAD_ACCOUNT);
    }
}
