//! What roundings cut off: why a balance is not nil.

use crate::calls::{self, field, Books};
use crate::kinds::{Region, Stage};
use crate::refusal::{Reason, Refusal};

/// What the roundings of one stage of a pool cut off, exact less rounded, over all
/// accounts together: `cut` / `divisor`, in ten-thousandths of a dollar. It is that of
/// the quotients as they are rounded; the lines of a contingency constraint and of a
/// contract are minus those.
#[derive(Clone, Copy, Debug, PartialEq, Eq, Hash)]
pub struct Cutoff {
    pub stage: Stage,
    /// Of a contract's stages, the region that benefits.
    pub region: Option<Region>,
    /// What all the stage's quotients are divided by, above 0.
    pub divisor: u64,
    /// The sum of the numerators that were cut off.
    pub cut: i64,
}

/// Gives what one stage of a pool cut off, by its number in the order of [`cutoffs`]. The
/// pool's number is that of [`balance`](crate::balance), and so are the refusals; a stage
/// past the pool's last is refused with 15 too.
///
/// ```
/// # fn main() -> Result<(), Box<dyn std::error::Error>> {
/// use fervolatro::Stage;
///
/// let book = std::fs::read("../../books/worked.book")?;
/// // Two units have 221,737.5 and 6,578,212.5 of FPP: both halves are rounded up.
/// let units = fervolatro::cutoff(&book, None, 0, 1)?;
/// assert_eq!(units.stage, Stage::Unit);
/// assert_eq!((units.cut, units.divisor), (-1_000_000, 1_000_000));
/// let refusal = fervolatro::cutoff(&book, None, 0, 4).unwrap_err();
/// assert_eq!(refusal.reason, fervolatro::Reason::PastEnd);
/// # Ok(())
/// # }
/// ```
pub fn cutoff(
    book: &[u8],
    locked: Option<&[u8]>,
    pool: u64,
    index: u64,
) -> Result<Cutoff, Refusal> {
    calls::cutoff(Books::of(book, locked), pool, index).into_result()
}

/// All stages of a pool, in their order: [`Stage::Line`] of a contingency constraint;
/// [`Stage::Pool`], [`Stage::Unit`], [`Stage::Residual`] and [`Stage::Share`] of a factored
/// one, the first not of a default one; of a contract [`Stage::Whole`], [`Stage::Half`],
/// [`Stage::Ace`] and [`Stage::Asoe`] for each region that benefits. The books are checked
/// for each of them.
///
/// Amount plus sum of the [`balance`](crate::balance) is what the stages cut off together,
/// each as a fraction of its divisor. Those of a contingency constraint's lines, and of a
/// contract's regions and lines, count as they are; those of a regulation constraint's
/// units, residual pool and residual lines with the other sign; how a pool is made and a
/// part is halved leaves nothing over:
///
/// ```
/// # fn main() -> Result<(), Box<dyn std::error::Error>> {
/// use fervolatro::Stage;
///
/// let book = std::fs::read("../../books/worked.book")?;
/// let balance = fervolatro::balance(&book, None, 0)?;
/// let mut left_over = 0;
/// for of in fervolatro::cutoffs(&book, None, 0)? {
///     // Here every sum of a stage is a whole number.
///     let whole = of.cut / of.divisor as i64;
///     left_over += match of.stage {
///         Stage::Line | Stage::Whole | Stage::Ace | Stage::Asoe => whole,
///         Stage::Unit | Stage::Residual | Stage::Share => -whole,
///         Stage::Pool | Stage::Half => 0,
///     };
/// }
/// assert_eq!(balance.amount + balance.sum, left_over);
/// # Ok(())
/// # }
/// ```
pub fn cutoffs(book: &[u8], locked: Option<&[u8]>, pool: u64) -> Result<Vec<Cutoff>, Refusal> {
    // Every pool has a stage, so 15 for the first is the pool's.
    let mut cutoffs = vec![cutoff(book, locked, pool, 0)?];
    loop {
        match cutoff(book, locked, pool, cutoffs.len() as u64) {
            Ok(next) => cutoffs.push(next),
            Err(refusal) => {
                assert_eq!(refusal.reason, Reason::PastEnd, "the books are accepted");
                return Ok(cutoffs);
            }
        }
    }
}

impl calls::Cut {
    /// The answer as a result. A stage has place 0, a refusal no stage. What the library
    /// never answers is not passed over in silence.
    fn into_result(self) -> Result<Cutoff, Refusal> {
        let numbers = [self.stage, self.region, self.divisor];
        let is_empty = numbers == [0; 3] && self.cut == 0;
        calls::accepted(self.refusal, self.place, is_empty)?;
        let stage = Stage::from_number(field(self.stage)).expect("stages are 1 to 9");
        let region = Region::from_number(field(self.region)).expect("regions are 0 to 4");
        assert!(self.divisor > 0, "{stage}: divided by nothing");
        assert!(
            stage.is_of_a_contract() || self.region == 0,
            "{stage}: a region of no contract"
        );
        Ok(Cutoff {
            stage,
            region: stage.is_of_a_contract().then_some(region),
            divisor: self.divisor,
            cut: self.cut,
        })
    }
}

#[cfg(test)]
mod tests {
    use super::Cutoff;
    use crate::calls::Cut;
    use crate::kinds::{Region, Stage};
    use crate::refusal::Refusal;

    fn cut(refusal: u64, stage: u64, region: u64, divisor: u64, cut: i64) -> Cut {
        Cut {
            refusal,
            place: 0,
            stage,
            region,
            divisor,
            cut,
        }
    }

    #[test]
    fn stages_and_refusals_are_told() {
        let unit = Cutoff {
            stage: Stage::Unit,
            region: None,
            divisor: 1_000_000,
            cut: -7,
        };
        assert_eq!(cut(0, 3, 0, 1_000_000, -7).into_result(), Ok(unit));
        let by_ace = cut(0, 8, 0, 6, 1).into_result();
        assert_eq!(by_ace.map(|of| of.region), Ok(Some(Region::Nsw1)));
        let past = cut(15, 0, 0, 0, 0).into_result();
        assert_eq!(past, Err(Refusal::of(15, 0)));
    }

    #[test]
    #[should_panic(expected = "a refusal gives nothing")]
    fn a_refusal_that_has_a_divisor_is_not_passed_over() {
        let _ = cut(15, 0, 0, 1, 0).into_result();
    }

    #[test]
    #[should_panic(expected = "a refusal gives nothing")]
    fn a_refusal_that_cuts_something_off_is_not_passed_over() {
        let _ = cut(15, 0, 0, 0, -1).into_result();
    }

    #[test]
    #[should_panic(expected = "stages are 1 to 9")]
    fn another_stage_is_not_passed_over() {
        let _ = cut(0, 10, 0, 1, 0).into_result();
    }

    #[test]
    #[should_panic(expected = "regions are 0 to 4")]
    fn another_region_is_not_passed_over() {
        let _ = cut(0, 6, 5, 1, 0).into_result();
    }

    #[test]
    #[should_panic(expected = "the units' lines: a region of no contract")]
    fn a_region_of_no_contract_is_not_passed_over() {
        let _ = cut(0, 3, 1, 1, 0).into_result();
    }

    #[test]
    #[should_panic(expected = "a contract's halves: divided by nothing")]
    fn a_divisor_of_0_is_not_passed_over() {
        let _ = cut(0, 7, 0, 0, 0).into_result();
    }
}
