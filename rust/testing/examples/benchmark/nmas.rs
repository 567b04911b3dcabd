//! The reconciliation files that are timed, of 16 contracts over five regions: written from
//! the largest books, and from one in which there is little else to do; and read.

use std::hint::black_box;

use super::books::{self, Asked};
use super::timing::{side_by_side, Times};
use fervolatro::PaymentType;
use fervolatro_testing::{fast, reference};

const TYPE: PaymentType = PaymentType::Availability;

/// Of the longest statement's book, and of the same with a locked one.
pub fn print(longest: &Asked, with_locked: &Asked) {
    println!("\nreconciliation file of 80 lines\n{}", Times::HEADING);
    let contracts = books::of_contracts();
    for (name, asked) in [
        (&contracts.name[..], &contracts),
        (&longest.name, longest),
        ("longest, with a locked", with_locked),
    ] {
        let times = written(asked);
        println!("{}", times.row_of("file", name, asked.length()));
    }
    let text = text(longest);
    let name = "a file of 80 lines";
    println!("{}", rows(&text).row_of("rows", name, text.len()));
    for index in [0, 40, 79] {
        let call = format!("row {index}");
        println!("{}", row(&text, index).row_of(&call, name, text.len()));
    }
}

/// The account's file, which has 80 lines.
fn text(asked: &Asked) -> Vec<u8> {
    let text = reference::whole_nmas(asked.books(), asked.account, TYPE.into());
    let text = text.expect("the account is known");
    assert_eq!(reference::nmas_rows(&text), Ok(80), "{}", asked.name);
    text
}

/// The file into a buffer of just its length.
fn written(asked: &Asked) -> Times {
    let (books, account) = (asked.books(), asked.account);
    let text = text(asked);
    let [mut theirs, mut ours] = [vec![0; text.len()], vec![0; text.len()]];
    let times = side_by_side(
        || {
            let (book, locked) = (black_box(&asked.bytes), black_box(asked.locked()));
            let buffer = black_box(&mut theirs[..]);
            fervolatro::nmas_into(book, locked, account, TYPE, buffer).is_ok()
        },
        || fast::nmas(black_box(books), account, TYPE.into(), black_box(&mut ours)).is_ok(),
    );
    assert!(theirs == text && ours == text, "{}", asked.name);
    times
}

fn rows(text: &[u8]) -> Times {
    side_by_side(
        || fervolatro::nmas_rows(black_box(text)) == Ok(80),
        || fast::nmas_rows(black_box(text)) == Ok(80),
    )
}

fn row(text: &[u8], index: u64) -> Times {
    side_by_side(
        || fervolatro::nmas_row(black_box(text), black_box(index)).is_ok(),
        || fast::nmas_row(black_box(text), black_box(index)).is_ok(),
    )
}
