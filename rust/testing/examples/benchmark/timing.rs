//! Times of two calls side by side.

use std::hint::black_box;
use std::iter::Sum;
use std::time::{Duration, Instant};

use super::books::Asked;

/// How long a round of one call takes at least, and how many rounds there are.
const ROUND: Duration = Duration::from_micros(400);
const ROUNDS: usize = 120;

/// Nanoseconds per call: of the library's, and of the one beside it, which is the fast
/// version's where nothing else is said.
#[derive(Clone, Copy)]
pub struct Times {
    pub library: f64,
    pub beside: f64,
}

/// The least time of each call over rounds of both by turns. A call tells whether it
/// was accepted, and has to be.
pub fn side_by_side(mut library: impl FnMut() -> bool, mut beside: impl FnMut() -> bool) -> Times {
    let mut times = Times {
        library: f64::INFINITY,
        beside: f64::INFINITY,
    };
    let library_calls = calls_of_a_round(&mut library);
    let calls_beside = calls_of_a_round(&mut beside);
    for _ in 0..ROUNDS {
        times.library = times.library.min(round(&mut library, library_calls));
        times.beside = times.beside.min(round(&mut beside, calls_beside));
    }
    times
}

/// The least time of a call over so many rounds, in nanoseconds.
pub fn alone(rounds: usize, mut call: impl FnMut() -> bool) -> f64 {
    let calls = calls_of_a_round(&mut call);
    let times = (0..rounds).map(|_| round(&mut call, calls));
    times.fold(f64::INFINITY, f64::min)
}

/// So many calls that they take the time of a round.
fn calls_of_a_round(call: &mut impl FnMut() -> bool) -> u32 {
    let mut calls = 1;
    while round(call, calls) * f64::from(calls) < ROUND.as_nanos() as f64 {
        calls *= 2;
    }
    calls
}

/// Nanoseconds per call.
fn round(call: &mut impl FnMut() -> bool, calls: u32) -> f64 {
    let start = Instant::now();
    for _ in 0..calls {
        assert!(black_box(call()), "it is accepted");
    }
    start.elapsed().as_nanos() as f64 / f64::from(calls)
}

impl Sum for Times {
    fn sum<I: Iterator<Item = Times>>(times: I) -> Self {
        let none = Times {
            library: 0.0,
            beside: 0.0,
        };
        times.fold(none, |sum, times| Times {
            library: sum.library + times.library,
            beside: sum.beside + times.beside,
        })
    }
}

impl Times {
    pub const HEADING: &'static str =
        "call                  book                      bytes    library ns       fast ns  \
         library MB/s  fast MB/s  ratio";

    /// Where a call was so many.
    pub fn divided_by(self, calls: usize) -> Self {
        Times {
            library: self.library / calls as f64,
            beside: self.beside / calls as f64,
        }
    }

    /// The library's time to the one beside it: 1 and below is as fast.
    pub fn ratio(&self) -> f64 {
        self.library / self.beside
    }

    /// A row of the table, for a book or a statement.
    pub fn row(&self, call: &str, asked: &Asked) -> String {
        self.row_of(call, &asked.name, asked.length())
    }

    /// A row of the table, for so many bytes of this name.
    pub fn row_of(&self, call: &str, name: &str, bytes: usize) -> String {
        let (library, fast) = (self.library, self.beside);
        // Bytes per nanosecond are thousands of megabytes per second.
        let rate = |time: f64| 1_000.0 * bytes as f64 / time;
        format!(
            "{call:<21} {name:<23} {bytes:>7} {library:>13.1} {fast:>13.1} {:>13.0} {:>10.0} {:>6.2}",
            rate(library),
            rate(fast),
            self.ratio()
        )
    }
}
