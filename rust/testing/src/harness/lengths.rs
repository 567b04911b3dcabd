//! The length of a statement, which is asked for with every statement.

use super::question::{Answer, Call, Given};
use super::report::shown;
use super::run::Run;
use crate::{Books, Refusal};

impl Run {
    /// Compares the length too where the call is for a statement. It has to be that of
    /// what the call gave.
    pub(super) fn compare_length(&mut self, call: Call, books: Books, given: &Given) {
        let Some(account) = call.statement_of() else {
            return;
        };
        let length = self.compare(Call::Length { account }, books);
        assert!(
            is_length_of(given, call.room(), &length),
            "{}: {call:?}: {given:?}, and its length {length:?}, {}",
            self.place(),
            shown(books)
        );
    }
}

/// Whether a statement that was given so in this room has this length. One that had too
/// little room is longer than that; any other refusal is the length's as well, at the same
/// place.
fn is_length_of(given: &Given, room: usize, length: &Given) -> bool {
    match given {
        Ok(Answer::Bytes(bytes)) => *length == Ok(Answer::Length(bytes.len())),
        Err(Refusal { number: 13, .. }) => matches!(length, Ok(Answer::Length(of)) if *of > room),
        _ => length == given,
    }
}

#[cfg(test)]
mod tests {
    use super::is_length_of;
    use crate::harness::{Answer, Given};
    use crate::Refusal;

    const ROOM: usize = 50;

    fn refused(number: u8, place: usize) -> Given {
        Err(Refusal { number, place })
    }

    #[test]
    fn what_is_written_has_the_length() {
        let whole = Ok(Answer::Bytes(vec![0; 48]));
        for written in [Ok(Answer::Length(48)), whole] {
            assert!(is_length_of(&written, ROOM, &Ok(Answer::Length(48))));
            assert!(!is_length_of(&written, ROOM, &Ok(Answer::Length(24))));
            assert!(!is_length_of(&written, ROOM, &refused(11, 0)));
        }
    }

    #[test]
    fn what_has_too_little_room_is_longer() {
        let short = refused(13, 0);
        assert!(is_length_of(&short, ROOM, &Ok(Answer::Length(51))));
        assert!(!is_length_of(&short, ROOM, &Ok(Answer::Length(50))));
        assert!(!is_length_of(&short, ROOM, &short));
    }

    #[test]
    fn any_other_refusal_is_the_length_s() {
        let field = refused(5, 84);
        assert!(is_length_of(&field, ROOM, &field));
        assert!(!is_length_of(&field, ROOM, &refused(5, 124)));
        assert!(!is_length_of(&field, ROOM, &refused(6, 84)));
        assert!(!is_length_of(&field, ROOM, &Ok(Answer::Length(51))));
    }
}
