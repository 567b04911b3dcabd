//! The calls with a locked book: beside the fast version, beside the same book by itself,
//! and with accounts that are chosen against the count of both books' accounts.

use super::books::{self, Asked, Pairs};
use super::cutoff;
use super::timing::{alone, Times};
use super::{average, balance, check, chosen_beside, fullest, just_room, length, statement};
use fervolatro_testing::reference::Kind;

/// How often the library is timed where nothing stands beside it.
const ROUNDS: usize = 120;

/// The pairs, and each of the usual ones' book by itself, with contracts of kind 1.
pub fn print(pairs: &Pairs, by_themselves: &[&Asked; 3]) {
    println!("\nwith a locked book\n{}", Times::HEADING);
    let asked = || pairs.usual.iter().chain([&pairs.unequal]);
    for pair in asked() {
        println!("{}", check(pair).row("check", pair));
    }
    for pair in asked() {
        println!("{}", length(pair).row("length", pair));
    }
    for pair in asked() {
        println!("{}", statement(pair).row("statement", pair));
    }
    for pair in asked().chain([&pairs.disjoint]) {
        let pool = fullest(pair, Kind::Contract).expect("it has contracts");
        println!("{}", balance(pair, pool).row("balance, Contract", pair));
        println!("{}", average(pair).row("balance, average", pair));
    }
    for pair in asked() {
        cutoff::print_of_a_contract(pair);
    }
    more_than_alone(pairs, by_themselves);
    println!("\nbalance, accounts of two books chosen against the count");
    let chosen = [10, 14, 18, 20].map(books::pair_against);
    chosen_beside(&pairs.disjoint, chosen);
}

/// By how many of its own checks a statement with a locked book, as large, takes longer
/// than that of the same book without contracts of kind 2: 1.2 at most are allowed.
fn more_than_alone(pairs: &Pairs, by_themselves: &[&Asked; 3]) {
    println!("\nstatement with a locked book and without, both the library's");
    println!("book                       with ns    without ns      check ns  more checks");
    for (pair, by_itself) in pairs.usual.iter().zip(by_themselves) {
        let [with, without] = [pair, by_itself].map(statement_alone);
        let check = alone(ROUNDS, || by_itself.is_checked());
        let more = (with - without) / check;
        let name = &pair.name;
        println!("{name:<22} {with:>11.1} {without:>13.1} {check:>13.1} {more:>12.2}");
    }
}

/// What the library takes for the account's statement, in nanoseconds.
fn statement_alone(asked: &Asked) -> f64 {
    let mut buffer = just_room(asked);
    alone(ROUNDS, || asked.is_settled(&mut buffer))
}
