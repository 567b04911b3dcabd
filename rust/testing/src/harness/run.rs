//! One run: its random numbers, where it stands, and what it has seen.

use std::collections::BTreeMap;
use std::fmt::{Display, Write as _};

use super::lent::Lent;
use super::question::{Call, Given, Side, REFERENCE};
use super::report::{self, shown};
use crate::requests::random::Random;
use crate::Books;

/// Inputs of one sort: their name, and what makes and compares them.
pub type Family = (&'static str, fn(&mut Run));

/// Whose the units of a run's books are.
#[derive(Clone, Copy, Debug)]
pub enum Units {
    /// Most have an account of their own.
    Own,
    /// They are shared by a few accounts, which so have several rows.
    Shared,
    /// One or the other, as it is drawn.
    Either,
}

/// What a run has to have seen at its end.
pub struct Wanted<'w> {
    /// How many inputs at least.
    pub inputs: u64,
    /// The calls, and just the answers that each has to have given: 0, or a refusal's
    /// number.
    pub answers: &'w [(&'w str, &'w [usize])],
    /// What else, and how often at least.
    pub seen: Vec<(String, u64)>,
}

/// How often each answer came: 0, or a refusal's number, of which 19 is the highest.
type Counts = [u64; 20];

pub struct Run {
    pub random: Random,
    pub(super) units: Units,
    seed: u64,
    tested: Side,
    family: &'static str,
    inputs: BTreeMap<&'static str, u64>,
    answers: BTreeMap<&'static str, Counts>,
    seen: BTreeMap<String, u64>,
}

impl Run {
    /// A run by the seed of the environment, that has seen nothing yet.
    pub fn new(tested: Side, units: Units) -> Self {
        let seed = report::seed();
        Run {
            random: Random::new(seed),
            units,
            seed,
            tested,
            family: "",
            inputs: BTreeMap::new(),
            answers: BTreeMap::new(),
            seen: BTreeMap::new(),
        }
    }

    /// Goes through the families.
    pub fn over(families: &[Family], tested: Side, units: Units) -> Self {
        let mut run = Run::new(tested, units);
        for &(name, family) in families {
            run.enter(name, family);
        }
        run
    }

    /// Goes through one family.
    pub fn enter(&mut self, name: &'static str, family: impl FnOnce(&mut Run)) {
        self.family = name;
        self.inputs.insert(name, 0);
        family(self);
    }

    pub fn seed(&self) -> u64 {
        self.seed
    }

    /// Counts an input of the family. Every input is counted once, however many
    /// questions it is asked.
    pub fn input(&mut self) {
        *self.inputs.entry(self.family).or_default() += 1;
    }

    fn inputs(&self) -> u64 {
        self.inputs.values().sum()
    }

    /// Counts something that the run has to have seen.
    pub fn see(&mut self, what: impl Display) {
        *self.seen.entry(what.to_string()).or_default() += 1;
    }

    /// Where the run stands, for a message about a difference.
    pub fn place(&self) -> String {
        let (inputs, seed, family) = (self.inputs(), self.seed, self.family);
        format!("difference at input {inputs} of seed {seed} ({family})")
    }

    /// Puts the question to the tested side and to the reference. Answers and whole
    /// buffers have to be the same, and the bytes around a buffer untouched. With a
    /// statement its length is asked for too. Gives the answer, and what the buffer then
    /// holds.
    pub fn compare_into<'b>(&mut self, call: Call, books: impl Into<Books<'b>>) -> (Given, Lent) {
        let books = books.into();
        let mut theirs = Lent::new(call.room(), self.random.bits() as u8);
        let mut ours = theirs.clone();
        let tested = (self.tested.ask)(call, books, theirs.buffer());
        let reference = (REFERENCE.ask)(call, books, ours.buffer());
        self.agree(call, books, &tested, &reference);
        assert!(
            theirs == ours,
            "{}: {call:?}: {reference:?}, first different byte of the buffer {:?}, {}",
            self.place(),
            theirs.first_difference(&ours),
            shown(books)
        );
        self.compare_length(call, books, &tested);
        (tested, theirs)
    }

    /// As [`Run::compare_into`], for the answer alone.
    pub fn compare<'b>(&mut self, call: Call, books: impl Into<Books<'b>>) -> Given {
        self.compare_into(call, books).0
    }

    /// Puts the question to the tested side, which has to give this answer.
    pub fn expect<'b>(&mut self, call: Call, books: impl Into<Books<'b>>, reference: Given) {
        let books = books.into();
        let tested = (self.tested.ask)(call, books, &mut []);
        self.agree(call, books, &tested, &reference);
    }

    /// Both answers have to be the same; it is counted.
    fn agree(&mut self, call: Call, books: Books, tested: &Given, reference: &Given) {
        assert!(
            tested == reference,
            "{}: {call:?}: {} {tested:?}, reference {reference:?}, {}",
            self.place(),
            self.tested.name,
            shown(books)
        );
        let number = reference.as_ref().map_or_else(|no| no.number, |_| 0);
        let answers = self.answers.entry(call.name()).or_default();
        answers[usize::from(number)] += 1;
    }

    /// Prints what was counted, and compares it with what is wanted.
    pub fn finish(self, wanted: &Wanted) {
        report::print(&self.report());
        for (family, &inputs) in &self.inputs {
            assert!(inputs > 0, "no input of '{family}'");
        }
        let inputs = self.inputs();
        assert!(inputs >= wanted.inputs, "too few inputs: {inputs}");
        let asked: Vec<&str> = self.answers.keys().copied().collect();
        let mut calls: Vec<&str> = wanted.answers.iter().map(|(call, _)| *call).collect();
        calls.sort_unstable();
        assert_eq!(asked, calls, "the calls that were asked");
        for (call, numbers) in wanted.answers {
            for (number, &given) in self.answers[call].iter().enumerate() {
                let is_wanted = numbers.contains(&number);
                assert_eq!(given > 0, is_wanted, "{call}: {number} came {given} times");
            }
        }
        for (what, fewest) in &wanted.seen {
            let seen = self.seen.get(what).copied().unwrap_or(0);
            assert!(seen >= *fewest, "{what}: {seen} of at least {fewest}");
        }
    }

    fn report(&self) -> String {
        let mut report = format!("seed {}: {} inputs\n", self.seed, self.inputs());
        let mut line = |what: &str, counts: String| {
            writeln!(report, "  {what}: {counts}").expect("a string takes it");
        };
        for (call, answers) in &self.answers {
            let given = answers.iter().enumerate().filter(|(_, &given)| given > 0);
            let given = given.map(|(number, given)| format!("{number} {given} times"));
            line(call, given.collect::<Vec<_>>().join(", "));
        }
        for (what, seen) in &self.seen {
            line(what, seen.to_string());
        }
        report
    }
}

#[cfg(test)]
mod tests {
    use super::{Run, Units, Wanted};
    use crate::harness::{Answer, Call, Side, LIBRARY};
    use crate::requests::worked::worked_book;

    const ROOM: Call = Call::Statement {
        account: 7,
        room: 312,
    };

    fn run_of(tested: Side) -> Run {
        let family = |run: &mut Run| {
            run.input();
            let _ = run.compare(ROOM, &worked_book().encode());
        };
        Run::over(&[("the worked book", family)], tested, Units::Own)
    }

    fn wanted<'w>(answers: &'w [(&'w str, &'w [usize])]) -> Wanted<'w> {
        Wanted {
            inputs: 1,
            answers,
            seen: Vec::new(),
        }
    }

    /// What the worked book is asked for and gives: with the statement its length.
    const GIVEN: &[(&str, &[usize])] = &[("statement", &[0]), ("length", &[0])];

    #[test]
    fn what_agrees_passes() {
        run_of(LIBRARY).finish(&wanted(GIVEN));
    }

    /// The message has the seed, the family, the question and both answers.
    #[test]
    #[should_panic(expected = " (the worked book): Statement { account: 7, room: 312 }: \
                               short Ok(Length(311)), reference Ok(Length(312))")]
    fn another_answer_is_a_difference() {
        run_of(Side {
            name: "short",
            ask: |_, _, _| Ok(Answer::Length(311)),
        });
    }

    #[test]
    #[should_panic(expected = "first different byte of the buffer Some(311)")]
    fn another_byte_is_a_difference() {
        run_of(Side {
            name: "careless",
            ask: |call, books, buffer| {
                let answer = (LIBRARY.ask)(call, books, buffer);
                buffer[311] ^= 1;
                answer
            },
        });
    }

    #[test]
    #[should_panic(expected = "Length { account: 7 }: long Ok(Length(336)), \
                               reference Ok(Length(312))")]
    fn another_length_is_a_difference() {
        run_of(Side {
            name: "long",
            ask: |call, books, buffer| match call {
                Call::Length { .. } => Ok(Answer::Length(336)),
                _ => (LIBRARY.ask)(call, books, buffer),
            },
        });
    }

    #[test]
    #[should_panic(expected = "no input of 'nothing'")]
    fn a_family_without_inputs_is_missed() {
        let mut run = run_of(LIBRARY);
        run.enter("nothing", |_| ());
        run.finish(&wanted(GIVEN));
    }

    #[test]
    #[should_panic(expected = "too few inputs: 1")]
    fn inputs_are_missed() {
        run_of(LIBRARY).finish(&Wanted {
            inputs: 2,
            ..wanted(GIVEN)
        });
    }

    #[test]
    #[should_panic(expected = "statement: 13 came 0 times")]
    fn an_answer_is_missed() {
        run_of(LIBRARY).finish(&wanted(&[("statement", &[0, 13]), ("length", &[0])]));
    }

    #[test]
    #[should_panic(expected = "statement: 0 came 1 times")]
    fn an_answer_that_is_not_wanted_is_seen() {
        run_of(LIBRARY).finish(&wanted(&[("statement", &[]), ("length", &[0])]));
    }

    #[test]
    #[should_panic(expected = "the calls that were asked")]
    fn a_call_is_missed() {
        let with_check: &[(&str, &[usize])] =
            &[("statement", &[0]), ("length", &[0]), ("check", &[0])];
        run_of(LIBRARY).finish(&wanted(with_check));
    }

    #[test]
    #[should_panic(expected = "the calls that were asked")]
    fn a_call_that_is_not_wanted_is_seen() {
        run_of(LIBRARY).finish(&wanted(&[("statement", &[0])]));
    }

    #[test]
    #[should_panic(expected = "halves: 1 of at least 2")]
    fn what_was_seen_too_seldom_is_missed() {
        let mut run = run_of(LIBRARY);
        run.see("halves");
        run.finish(&Wanted {
            seen: vec![("halves".to_owned(), 2)],
            ..wanted(GIVEN)
        });
    }
}
