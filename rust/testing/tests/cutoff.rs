//! Compares what roundings cut off, stage by stage, with the reference, as the library
//! answers it and as the fast version does: every stage of every pool of books of every
//! sort, with a locked book and without, numbers past the last stage and the last pool,
//! refused books. In exact fractions every balance has to be what its stages cut off.
//!
//! In a further test the library's own statements of all accounts are held against its
//! stages, one by one: what is to be rounded there is the rounded lines and what was cut
//! off.

use std::collections::BTreeMap;

use fervolatro_testing::book::{Book, Constraint, Contract, EnergyRow};
use fervolatro_testing::books::{Encoded, Pair};
use fervolatro_testing::harness::report::shown;
use fervolatro_testing::harness::{
    constraint_over, every_mask, Answer, Call, Family, Run, Side, Units, Wanted, FAST, LIBRARY,
};
use fervolatro_testing::reference::{self, Cutoffs, Kind, Pool};
use fervolatro_testing::requests::generate::Sizes;
use fervolatro_testing::requests::worked::{empty_book, worked_book};
use fervolatro_testing::statement::{Line, Statement};
use fervolatro_testing::{library, Balance, Books, Cutoff};

#[test]
fn library_and_reference_cut_off_the_same() {
    agree(LIBRARY);
}

#[test]
fn fast_and_reference_cut_off_the_same() {
    agree(FAST);
}

fn agree(tested: Side) {
    let mut seen = all_stages(200);
    seen.push((ACCEPTED.to_owned(), 20_000));
    seen.push((LEFT_OVER.to_owned(), 10_000));
    seen.extend(every_mask(constraint_over, 100));
    Run::over(&FAMILIES, tested, Units::Either).finish(&Wanted {
        inputs: 26_000,
        answers: &[
            ("balance", &[0]),
            ("cut-off", &[0, 1, 2, 3, 4, 5, 6, 7, 8, 9, 10, 15, 17, 18]),
        ],
        seen,
    });
}

#[test]
fn stages_are_what_the_statements_round() {
    let mut seen = all_stages(50);
    seen.extend(Kind::ALL.iter().map(|&kind| (pool_of(kind), 1_000)));
    let of_lines = ["line", "unit", "share", "ace", "asoe"];
    seen.extend(of_lines.map(|name| (with_a_half(name), 50)));
    Run::over(&EXPLAINED, LIBRARY, Units::Either).finish(&Wanted {
        inputs: 5_501,
        answers: &[("all cut-offs", &[0, 15])],
        seen,
    });
}

const FAMILIES: [Family; 9] = [
    ("small books", |run| {
        accepted(run, 16_000, |run| run.accepted(Sizes::SMALL))
    }),
    ("medium books", |run| {
        accepted(run, 1_000, |run| run.accepted(Sizes::MEDIUM))
    }),
    ("an account in every region", |run| {
        accepted(run, 500, |run| run.in_every_region(Sizes::SMALL).0)
    }),
    ("halves", |run| accepted(run, 3_000, Run::of_halves)),
    ("amounts at their ends", |run| {
        accepted(run, 1_500, Run::at_ends)
    }),
    ("large books", |run| {
        accepted(run, 6, |run| run.accepted_of(Sizes::LARGEST))
    }),
    ("books of few records", few_records),
    ("refused books", refused_books),
    ("turned bits", |run| {
        run.each_turned_book(3_000, |run, _, books| {
            compare(run, books);
        })
    }),
];

const EXPLAINED: [Family; 4] = [
    ("small books", |run| {
        explain(run, 3_000, |run| run.accepted(Sizes::SMALL))
    }),
    ("medium books", |run| {
        explain(run, 500, |run| run.accepted(Sizes::MEDIUM))
    }),
    ("halves", |run| explain(run, 2_000, Run::of_halves)),
    ("a large book", |run| {
        explain(run, 1, |run| run.accepted_of(Sizes::LARGEST))
    }),
];

// What has to be seen.

const ACCEPTED: &str = "accepted books";
const LEFT_OVER: &str = "balances that are not nil";

/// The stages by their names, from 1.
const STAGES: [&str; 9] = [
    "line", "pool", "unit", "residual", "share", "whole", "half", "ace", "asoe",
];

const HALF: u8 = 7;

/// What a stage cut off, of nothing, above and below 0, and of a half of the divisor at
/// least: where it is one quotient that is rounded, just a half is that.
fn hows(of: &Cutoff) -> Vec<String> {
    let name = STAGES[usize::from(of.stage) - 1];
    let sign = match of.cut.signum() {
        0 => "of nothing",
        1 => "above 0",
        _ => "below 0",
    };
    let is_half = 2 * of.cut.unsigned_abs() >= of.divisor;
    let hows = [Some(sign), is_half.then_some("of a half or more")];
    let hows = hows.into_iter().flatten();
    hows.map(|how| format!("stage {name} {how}")).collect()
}

/// Every stage has to have come in every way, so often at least. A consumed half is never
/// rounded down.
fn all_stages(fewest: u64) -> Vec<(String, u64)> {
    let mut wanted = Vec::new();
    for stage in 1..=9 {
        for (cut, divisor) in [(0, 2), (1, 3), (-1, 3), (-1, 2)] {
            if stage != HALF || cut != 1 {
                let of = Cutoff {
                    stage,
                    region: 0,
                    divisor,
                    cut,
                };
                wanted.extend(hows(&of).into_iter().map(|how| (how, fewest)));
            }
        }
    }
    wanted
}

/// A stage of several quotients, one of which at least ends in a half.
fn with_a_half(name: &str) -> String {
    format!("stage {name} with a half")
}

fn see_stages(run: &mut Run, stages: &[Cutoff]) {
    for how in stages.iter().flat_map(hows) {
        run.see(how);
    }
}

fn pool_of(kind: Kind) -> String {
    format!("pool of {kind:?}")
}

// What is compared.

fn accepted(run: &mut Run, times: usize, draw: fn(&mut Run) -> Pair) {
    for _ in 0..times {
        let pair = draw(run);
        compare_accepted(run, &pair);
    }
}

fn compare_accepted(run: &mut Run, pair: &Pair) {
    let bytes = pair.encode();
    let is_accepted = compare(run, Books::from(&bytes));
    assert!(is_accepted, "not accepted: {}", shown(&bytes));
}

/// Compares every stage of every pool, and numbers past both ends; tells whether the book
/// is accepted.
fn compare(run: &mut Run, books: Books) -> bool {
    run.input();
    let cutoffs = match reference::cutoffs(books) {
        Ok(cutoffs) => cutoffs,
        Err(refusal) => {
            for (pool, index) in [(0, 0), (1, 2), (u64::MAX, u64::MAX)] {
                run.expect(Call::Cutoff { pool, index }, books, Err(refusal));
            }
            return false;
        }
    };
    run.see(ACCEPTED);
    let book = Book::decode(books.book);
    run.see_masks(&book);
    let balances = reference::balances(books).expect("it is accepted");
    for pool in 0..balances.count() {
        let balance = balances.of(pool).expect("it is a pool's number");
        run.expect(Call::Balance { pool }, books, Ok(Answer::Balance(balance)));
        let stages = cutoffs.of_pool(pool).expect("it is a pool's number");
        compare_pool(run, books, (pool, &cutoffs), stages.len() as u64);
        assert_explained(run, &balance, stages, books);
    }
    for pool in past(run, balances.count()) {
        for index in [0, 1, u64::MAX] {
            expect(run, books, &cutoffs, (pool, index));
        }
    }
    true
}

/// Every stage of a pool, so many, and numbers past the last.
fn compare_pool(run: &mut Run, books: Books, (pool, cutoffs): (u64, &Cutoffs), count: u64) {
    for index in (0..count).chain(past(run, count)) {
        expect(run, books, cutoffs, (pool, index));
    }
}

fn expect(run: &mut Run, books: Books, cutoffs: &Cutoffs, (pool, index): (u64, u64)) {
    let expected = cutoffs.of(pool, index).map(Answer::Cutoff);
    run.expect(Call::Cutoff { pool, index }, books, expected);
}

/// The first number past so many, the highest there is, and one that would be among them
/// if some upper bits were cut.
fn past(run: &mut Run, count: u64) -> [u64; 3] {
    let inner = run.random.below(count as usize + 1) as u64;
    let upper = *run.random.pick(&[1 << 8, 1 << 16, 1 << 32, 1 << 63]);
    [count, u64::MAX, upper + inner]
}

fn few_records(run: &mut Run) {
    compare_accepted(run, &Pair::alone(empty_book()));
    compare_accepted(run, &Pair::alone(worked_book()));
    for (constraints, contracts) in [(0, 0), (1, 0), (0, 1), (64, 0), (0, 16)] {
        for _ in 0..20 {
            let pair = run.accepted_of(Sizes {
                constraints,
                units: 0,
                energies: 3,
                contracts,
            });
            compare_accepted(run, &pair);
        }
    }
}

/// Each fault in the first, the middle and the last record that can have it, and books cut
/// short.
fn refused_books(run: &mut Run) {
    run.each_fault(Sizes::SMALL, 4, |run, _, books| {
        compare(run, books);
    });
    let Encoded { book, locked } = run.accepted_of(Sizes::SMALL).encode();
    for length in 0..book.len() {
        let is_accepted = compare(run, Books::of(&book[..length], &locked));
        assert!(!is_accepted, "{length} of {} bytes", book.len());
    }
}

// A balance is what its stages cut off.

/// Amount plus sum is what lines and regions cut off, which are minus what was rounded, less
/// what the stages cut off whose lines are what was rounded. How a pool or a half is made
/// changes what is to be recovered, or by which half, and not what is left over.
fn sign(stage: u8) -> i128 {
    match STAGES[usize::from(stage) - 1] {
        "line" | "whole" | "ace" | "asoe" => 1,
        "unit" | "residual" | "share" => -1,
        _ => 0,
    }
}

fn assert_explained(run: &mut Run, balance: &Balance, stages: &[Cutoff], books: Books) {
    let left_over = Fraction::of((balance.amount + balance.sum).into(), 1);
    let parts = stages.iter().map(|of| {
        let cut = sign(of.stage) * i128::from(of.cut);
        Fraction::of(cut, of.divisor.into())
    });
    let sum = parts.fold(Fraction::of(0, 1), Fraction::plus);
    assert_eq!(
        left_over,
        sum,
        "{}: {balance:?} by {stages:?}, {}",
        run.place(),
        shown(books)
    );
    see_stages(run, stages);
    if balance.amount + balance.sum != 0 {
        run.see(LEFT_OVER);
    }
}

/// A fraction in lowest terms, by which the divisors of ten stages still fit 128 bits: the
/// lines by ACE, and those by ASOE, cut off a whole number together.
#[derive(Clone, Copy, Debug, PartialEq, Eq)]
struct Fraction {
    numerator: i128,
    denominator: i128,
}

impl Fraction {
    fn of(numerator: i128, denominator: i128) -> Self {
        let common = common_divisor(numerator.abs(), denominator);
        Fraction {
            numerator: numerator / common,
            denominator: denominator / common,
        }
    }

    fn plus(self, other: Fraction) -> Fraction {
        let times = |one: i128, two: i128| one.checked_mul(two).expect("it fits 128 bits");
        let own = times(self.numerator, other.denominator);
        let others = times(other.numerator, self.denominator);
        let sum = own.checked_add(others).expect("it fits 128 bits");
        Fraction::of(sum, times(self.denominator, other.denominator))
    }
}

fn common_divisor(one: i128, two: i128) -> i128 {
    match one {
        0 => two,
        _ => common_divisor(two % one, one),
    }
}

// Each stage is what the statements round.

fn explain(run: &mut Run, times: usize, draw: fn(&mut Run) -> Pair) {
    for _ in 0..times {
        run.input();
        let pair = draw(run);
        let bytes = pair.encode();
        let books = Books::from(&bytes);
        let cutoffs = reference::cutoffs(books).expect("it is accepted");
        let pools = reference::pools(&pair.book);
        let lines = lines_of_all(books);
        for (number, pool) in (0..).zip(&pools) {
            let stages = cutoffs.of_pool(number).expect("it is a pool's number");
            let all = Ok(Answer::Cutoffs(stages.to_vec()));
            run.expect(Call::AllCutoffs { pool: number }, books, all);
            run.see(pool_of(pool.kind));
            see_stages(run, stages);
            let (pair, lines) = (&pair, &lines);
            Explaining { run, pair, lines }.pool(pool, stages);
        }
        let past = pools.len() as u64;
        let _ = run.compare(Call::AllCutoffs { pool: past }, books);
    }
}

/// The lines that the library writes for all accounts.
fn lines_of_all(books: Books) -> Vec<Line> {
    let accounts = library::accounts(books).expect("the book is accepted");
    let statements = accounts.into_iter().map(|account| {
        let statement = library::whole_statement(books, account);
        Statement::decode(&statement.expect("it is written"))
    });
    statements.flat_map(|statement| statement.lines).collect()
}

/// What one quotient was rounded to. It is a whole number, and no more than half a divisor
/// was cut off.
fn rounded(of: &Cutoff, name: &str, exact: i128) -> i128 {
    let (cut, divisor) = (i128::from(of.cut), i128::from(of.divisor));
    assert_eq!(STAGES[usize::from(of.stage) - 1], name);
    assert!(2 * cut.abs() <= divisor, "{of:?}");
    assert_eq!((exact - cut) % divisor, 0, "{of:?} of {exact}");
    (exact - cut) / divisor
}

/// What each account of the energy rows has over a mask's regions, in size.
fn own_energies(book: &Book, mask: u8, size: fn(&EnergyRow) -> i32) -> Vec<i128> {
    let mut own = BTreeMap::new();
    for row in &book.energies {
        let is_in = i128::from(mask >> row.region & 1);
        *own.entry(row.account).or_default() += is_in * i128::from(size(row));
    }
    own.into_values().collect()
}

/// The stages of a pool, held against the lines of all accounts.
struct Explaining<'e> {
    run: &'e mut Run,
    pair: &'e Pair,
    lines: &'e [Line],
}

impl Explaining<'_> {
    fn pool(&mut self, pool: &Pool, stages: &[Cutoff]) {
        let Book {
            constraints,
            contracts,
            ..
        } = &self.pair.book;
        if pool.kind == Kind::Contract {
            let contract = contracts.iter().find(|of| of.id == pool.id);
            return self.contract(contract.expect("it is there"), stages);
        }
        let constraint = constraints.iter().find(|of| of.id == pool.id);
        let constraint = constraint.expect("it is there");
        match pool.kind {
            Kind::Contingency => self.contingency(constraint, stages),
            _ => self.regulation(constraint, pool, stages),
        }
    }

    /// What the lines of a part add up to, over these regions.
    fn sum(&self, id: u32, part: u8, regions: u8) -> i128 {
        let lines = self.lines.iter();
        let lines = lines.filter(|of| (of.id, of.part, of.regions) == (id, part, regions));
        lines.map(|line| i128::from(line.amount)).sum()
    }

    /// What several quotients have together is what they were rounded to, and what was cut
    /// off.
    fn are_rounded(&mut self, of: &Cutoff, name: &str, exact: &[i128], sum: i128) {
        let divisor = i128::from(of.divisor);
        assert_eq!(STAGES[usize::from(of.stage) - 1], name);
        let back = divisor * sum + i128::from(of.cut);
        assert_eq!(back, exact.iter().sum(), "{of:?}, lines {sum}");
        if exact
            .iter()
            .any(|one| 2 * one.abs() % (2 * divisor) == divisor)
        {
            self.run.see(with_a_half(name));
        }
    }

    /// The same of an amount that all accounts share by their energies.
    fn are_shared(&mut self, of: &Cutoff, name: &str, (amount, own): (i128, &[i128]), sum: i128) {
        assert_eq!(i128::from(of.divisor), own.iter().sum(), "{of:?}");
        let exact: Vec<i128> = own.iter().map(|own| amount * own).collect();
        self.are_rounded(of, name, &exact, sum);
    }

    fn contingency(&mut self, constraint: &Constraint, stages: &[Cutoff]) {
        let &Constraint { id, regions, .. } = constraint;
        let [line] = stages else {
            panic!("{stages:?}");
        };
        let (part, size): (u8, fn(&EnergyRow) -> i32) = match constraint.service % 2 {
            1 => (2, |row| row.asoe),
            _ => (1, |row| -row.ace),
        };
        let own = own_energies(&self.pair.book, regions, size);
        let paid = -self.sum(id, part, regions);
        self.are_shared(line, "line", (constraint.cost.into(), &own), paid);
    }

    fn regulation(&mut self, constraint: &Constraint, pool: &Pool, stages: &[Cutoff]) {
        let &Constraint { id, regions, .. } = constraint;
        let (made, [unit, residual, share]) = match stages {
            [unit, residual, share] => (None, [unit, residual, share]),
            [made, unit, residual, share] => (Some(made), [unit, residual, share]),
            _ => panic!("{stages:?}"),
        };
        assert_eq!(made.is_some(), constraint.mode == 1);
        let amount = made.map_or(constraint.cost.into(), |made| {
            made_pool(constraint, pool, made)
        });
        let (part, factor): (u8, fn(i32, i32) -> i32) = match pool.kind {
            Kind::Fpp => (3, |cf, _| cf),
            Kind::Used => (4, |cf, _| cf.min(0)),
            _ => (5, |_, dcf| dcf),
        };
        let book = &self.pair.book;
        let exact = |cf, dcf| amount * i128::from(factor(cf, dcf));
        let units = book.units.iter().filter(|row| row.constraint == id);
        let by_units: Vec<i128> = units.map(|row| exact(row.cf, row.dcf)).collect();
        assert_eq!([unit.divisor, residual.divisor], [1_000_000; 2]);
        self.are_rounded(unit, "unit", &by_units, self.sum(id, part, regions));
        let rest = rounded(residual, "residual", exact(constraint.rcf, constraint.drcf));
        let own = own_energies(book, regions, |row| row.residual_asoe - row.residual_ace);
        let sum = self.sum(id, part + 3, regions);
        self.are_shared(share, "share", (rest, &own), sum);
    }

    /// Four stages for each region that benefits. What the regions have together differs
    /// from the payment by what their parts cut off.
    fn contract(&mut self, contract: &Contract, stages: &[Cutoff]) {
        let benefiting = (0..5).filter(|&region| contract.factors[region] > 0);
        let benefiting: Vec<usize> = benefiting.collect();
        let (by_region, rest) = stages.as_chunks::<4>();
        assert!(rest.is_empty() && by_region.len() == benefiting.len());
        let mut left = i128::from(contract.payment);
        let mut cut = 0;
        for (region, stages) in benefiting.into_iter().zip(by_region) {
            assert!(stages.iter().all(|of| usize::from(of.region) == region));
            left -= self.region(contract, region, stages);
            cut += i128::from(stages[0].cut);
        }
        assert_eq!(left * 1_000_000, cut, "{stages:?}");
    }

    /// Gives the region's part.
    fn region(&mut self, contract: &Contract, region: usize, stages: &[Cutoff; 4]) -> i128 {
        let [whole, half, ace, asoe] = stages;
        let (id, bit) = (contract.id, 1 << region);
        let exact = i128::from(contract.payment) * i128::from(contract.factors[region]);
        assert_eq!([whole.divisor, half.divisor], [1_000_000, 2]);
        let part = rounded(whole, "whole", exact);
        let consumed = rounded(half, "half", part);
        let locked = self.pair.locked.as_ref();
        let locked = locked.filter(|_| contract.kind == 2);
        let book = locked.unwrap_or(&self.pair.book);
        let own = own_energies(book, bit, |row| -row.ace);
        let paid = -self.sum(id, 9, bit);
        self.are_shared(ace, "ace", (consumed, &own), paid);
        let own = own_energies(book, bit, |row| row.asoe);
        let paid = -self.sum(id, 10, bit);
        self.are_shared(asoe, "asoe", (part - consumed, &own), paid);
        part
    }
}

/// The pool itself, which is what is to be recovered; that of FPP is said nowhere else.
fn made_pool(constraint: &Constraint, pool: &Pool, made: &Cutoff) -> i128 {
    let [price, rcr, usage] = [constraint.price, constraint.rcr, constraint.usage].map(i128::from);
    let cost = i128::from(constraint.cost);
    let (divisor, exact) = match pool.kind {
        Kind::Fpp => (120, price * rcr),
        Kind::Used => (1_000_000, cost * usage),
        _ => (1_000_000, cost * 1_000_000 - cost * usage),
    };
    assert_eq!(made.divisor, divisor);
    let amount = rounded(made, "pool", exact);
    assert!(pool.kind == Kind::Fpp || amount == pool.amount.into());
    amount
}
