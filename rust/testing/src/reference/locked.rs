//! The locked book: where one is read, refusals 17 and 18, and which book a contract is
//! settled by. The sentences are those of the request (02, Req 04).

use crate::book::{Book, Contract, Sections};
use crate::Refusal;

use super::check::check_to_9;

/// Something of each book that a call reads: of the current one, and of the locked one
/// where it is read.
pub(super) struct PerBook<T> {
    pub current: T,
    pub locked: Option<T>,
}

/// The books that a call reads.
pub(super) type Read = PerBook<Book>;

impl<T> PerBook<T> {
    /// "Kind 2 contracts therefore take energies and region totals from a second book, the
    /// locked one; kind 1 from the current one."
    pub fn for_contract(&self, contract: &Contract) -> &T {
        match contract.kind {
            2 => self.locked.as_ref().expect("without one it is 17"),
            _ => &self.current,
        }
    }

    pub fn each(&self) -> impl Iterator<Item = &T> {
        [&self.current].into_iter().chain(&self.locked)
    }

    pub fn map<U>(&self, of: impl Fn(&T) -> U) -> PerBook<U> {
        PerBook {
            current: of(&self.current),
            locked: self.locked.as_ref().map(of),
        }
    }
}

/// "An empty slice is no locked book, and one is read only where a kind 2 contract
/// stands." "17 when a kind 2 contract has no locked book, then 18 when the locked book
/// fails one of checks 1 to 9, has another date or interval, or a later run, both at the
/// first such contract."
pub(super) fn locked_beside(current: &Book, bytes: &[u8]) -> Result<Option<Book>, Refusal> {
    let mut contracts = current.contracts.iter();
    let Some(first) = contracts.position(|contract| contract.kind == 2) else {
        return Ok(None);
    };
    let place = Sections::of(&current.header).contracts.offset(first);
    if bytes.is_empty() {
        return Err(Refusal { number: 17, place });
    }
    let locked = check_to_9(bytes).ok();
    let locked = locked.filter(|locked| goes_with(locked, current));
    let refused = Refusal { number: 18, place };
    locked.map(Some).ok_or(refused)
}

/// Not "another date or interval, or a later run".
fn goes_with(locked: &Book, current: &Book) -> bool {
    let (of, with) = (&locked.header, &current.header);
    of.date == with.date && of.interval == with.interval && of.run <= with.run
}
