//! The regions of the constraints that a run asks about: each of the 31 masks has to have
//! come, so that no way to go through the bits of a mask is left untried.

use super::run::Run;
use crate::book::Book;

impl Run {
    /// Counts the mask of each constraint of an accepted book that is asked about.
    pub fn see_masks(&mut self, book: &Book) {
        for constraint in &book.constraints {
            self.see(constraint_over(constraint.regions));
        }
    }
}

/// The name under which a constraint of an accepted book is counted.
pub fn constraint_over(mask: u8) -> String {
    format!("constraint over regions {mask:2}")
}

/// The name under which one is counted that is refused by 10.
pub fn zero_total_over(mask: u8) -> String {
    format!("zero total over regions {mask:2}")
}

/// Every mask there is under its name, and how often at least it has to have come.
pub fn every_mask(name: fn(u8) -> String, fewest: u64) -> impl Iterator<Item = (String, u64)> {
    (1..=31).map(move |mask| (name(mask), fewest))
}

#[cfg(test)]
mod tests {
    use super::{constraint_over, every_mask};
    use crate::book::Book;
    use crate::harness::{Run, Units, Wanted, LIBRARY};
    use crate::requests::worked::constraint;

    /// A run at its end that has seen a constraint over each of these masks.
    fn finish_with(masks: impl Iterator<Item = u8>) {
        let mut run = Run::new(LIBRARY, Units::Own);
        let constraints = masks.map(|mask| constraint(1, 1, 0, mask, 0));
        run.see_masks(&Book {
            constraints: constraints.collect(),
            ..Book::default()
        });
        run.finish(&Wanted {
            inputs: 0,
            answers: &[],
            seen: every_mask(constraint_over, 1).collect(),
        });
    }

    #[test]
    fn masks_that_all_came_pass() {
        finish_with(1..=31);
    }

    #[test]
    #[should_panic(expected = "constraint over regions 21: 0 of at least 1")]
    fn a_mask_that_never_came_is_missed() {
        finish_with((1..=31).filter(|&mask| mask != 21));
    }

    #[test]
    fn the_first_and_the_last_mask_are_wanted_too() {
        let wanted = every_mask(constraint_over, 1);
        let wanted: Vec<String> = wanted.map(|(what, _)| what).collect();
        assert_eq!(wanted.len(), 31);
        assert_eq!(wanted[0], "constraint over regions  1");
        assert_eq!(wanted[30], "constraint over regions 31");
    }
}
