//! Enums whose variants the C header numbers.

/// Declares an enum with the numbers of the header and with words for a reader. The
/// tests compare names and numbers with the header's.
macro_rules! numbered {
    ($(#[$about:meta])* $name:ident { $($variant:ident = $number:literal, $words:literal;)* }) => {
        $(#[$about])*
        #[derive(Clone, Copy, Debug, PartialEq, Eq, PartialOrd, Ord, Hash)]
        #[repr(u8)]
        pub enum $name {
            $(#[doc = concat!($words, ".")] $variant = $number,)*
        }

        impl $name {
            /// All there are, in the order of their numbers.
            pub const ALL: &'static [$name] = &[$($name::$variant),*];

            /// The number that books, statements and the C interface have for it.
            pub const fn number(self) -> u8 {
                self as u8
            }

            /// The one that has the number, if any has.
            pub const fn from_number(number: u8) -> Option<Self> {
                match number {
                    $($number => Some($name::$variant),)*
                    _ => None,
                }
            }

            /// What it is, in a few words.
            pub const fn words(self) -> &'static str {
                match self {
                    $($name::$variant => $words,)*
                }
            }
        }

        impl std::fmt::Display for $name {
            fn fmt(&self, out: &mut std::fmt::Formatter<'_>) -> std::fmt::Result {
                out.pad(self.words())
            }
        }
    };
}

pub(crate) use numbered;

#[cfg(test)]
mod tests {
    use crate::{Mode, Part, PaymentType, Reason, Region, Service, Stage};
    use crate::{
        DISPATCH_ROW_SIZE, LARGEST_BOOK, LARGEST_NMAS, LARGEST_STATEMENT, LINE_NUMBERS_SIZE,
        MOST_LINES, MOST_NMAS_ROWS,
    };
    use std::fmt::Debug;

    const HEADER: &str = include_str!("../../../include/fervolatro.h");

    /// The names and values of the header's enumerators that begin so, but those that
    /// begin in another way too.
    fn in_header(front: &str, but: &str) -> Vec<(String, u8)> {
        let lines = HEADER.lines().map(|line| line.trim().trim_end_matches(','));
        let named = lines.filter_map(|line| line.strip_prefix(front)?.split_once(" = "));
        let named = named.filter(|(name, _)| but.is_empty() || !name.starts_with(but));
        named
            .map(|(name, value)| (name.to_owned(), value.parse().expect("it is a number")))
            .collect()
    }

    /// `ContingencyAce` as the header writes it, `CONTINGENCY_ACE`.
    fn in_capitals(variant: &impl Debug) -> String {
        let mut name = String::new();
        for letter in format!("{variant:?}").chars() {
            if letter.is_uppercase() && !name.is_empty() {
                name.push('_');
            }
            name.push(letter.to_ascii_uppercase());
        }
        name
    }

    macro_rules! assert_numbers {
        ($of:ty, $front:literal, $but:literal) => {
            let here = <$of>::ALL.iter();
            let here: Vec<(String, u8)> = here
                .map(|variant| (in_capitals(variant), variant.number()))
                .collect();
            assert_eq!(here, in_header($front, $but));
            for variant in <$of>::ALL {
                assert_eq!(<$of>::from_number(variant.number()), Some(*variant));
            }
            let known = (0..=u8::MAX).filter(|&number| <$of>::from_number(number).is_some());
            assert_eq!(known.count(), <$of>::ALL.len());
        };
    }

    #[test]
    fn numbers_and_names_are_the_header_s() {
        assert_numbers!(Reason, "FERVOLATRO_REFUSED_", "");
        assert_numbers!(Part, "FERVOLATRO_PART_", "");
        assert_numbers!(Service, "FERVOLATRO_SERVICE_", "");
        assert_numbers!(Region, "FERVOLATRO_REGION_", "BIT_");
        assert_numbers!(Mode, "FERVOLATRO_MODE_", "");
        assert_numbers!(PaymentType, "FERVOLATRO_PAYMENT_TYPE_", "");
        assert_numbers!(Stage, "FERVOLATRO_STAGE_", "");
    }

    #[test]
    fn sizes_are_the_header_s() {
        let defined = |name: &str, value: usize| {
            let line = format!("#define FERVOLATRO_{name} {value}\n");
            assert!(HEADER.contains(&line), "{line}");
        };
        defined("LARGEST_BOOK", LARGEST_BOOK);
        defined("LARGEST_STATEMENT", LARGEST_STATEMENT);
        defined("MOST_LINES", MOST_LINES);
        defined("DISPATCH_ROW_SIZE", DISPATCH_ROW_SIZE);
        defined("LARGEST_NMAS", LARGEST_NMAS);
        defined("MOST_NMAS_ROWS", MOST_NMAS_ROWS);
        assert!(HEADER.contains(&format!("its length is {LINE_NUMBERS_SIZE} x lines")));
    }
}
