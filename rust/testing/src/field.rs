//! Numbers and records as bytes, little-endian, for books, statements and dispatch rows.

/// What has a fixed number of bytes, little-endian.
pub trait Field {
    const SIZE: usize;

    /// Adds the bytes at the end.
    fn write(&self, bytes: &mut Vec<u8>);

    /// Takes the bytes from the front. Panics if there are too few.
    fn read(bytes: &mut &[u8]) -> Self;
}

macro_rules! little_endian {
    ($($number:ty),*) => {$(
        impl Field for $number {
            const SIZE: usize = std::mem::size_of::<$number>();

            fn write(&self, bytes: &mut Vec<u8>) {
                bytes.extend_from_slice(&self.to_le_bytes());
            }

            fn read(bytes: &mut &[u8]) -> Self {
                let (front, rest) = bytes.split_first_chunk().expect("too few bytes");
                *bytes = rest;
                <$number>::from_le_bytes(*front)
            }
        }
    )*};
}

little_endian!(u8, u16, u32, i32, i64);

impl<F: Field, const N: usize> Field for [F; N] {
    const SIZE: usize = N * F::SIZE;

    fn write(&self, bytes: &mut Vec<u8>) {
        self.iter().for_each(|field| field.write(bytes));
    }

    fn read(bytes: &mut &[u8]) -> Self {
        std::array::from_fn(|_| F::read(bytes))
    }
}

/// Declares a record whose fields stand in the bytes in the order given here, so
/// that the order is written down once for reading and for writing.
macro_rules! record {
    ($(#[$about:meta])* $name:ident { $($field:ident: $kind:ty,)* }) => {
        $(#[$about])*
        #[derive(Clone, Copy, Debug, Default, PartialEq, Eq)]
        pub struct $name {
            $(pub $field: $kind,)*
        }

        impl Field for $name {
            const SIZE: usize = 0 $(+ <$kind>::SIZE)*;

            fn write(&self, bytes: &mut Vec<u8>) {
                $(self.$field.write(bytes);)*
            }

            fn read(bytes: &mut &[u8]) -> Self {
                $name { $($field: Field::read(bytes),)* }
            }
        }
    };
}

pub(crate) use record;

/// Takes so many records from the front. Panics if there are too few bytes.
pub(crate) fn read_records<R: Field>(bytes: &mut &[u8], count: u16) -> Vec<R> {
    (0..count).map(|_| R::read(bytes)).collect()
}

/// Adds the records at the end.
pub(crate) fn write_records<R: Field>(records: &[R], bytes: &mut Vec<u8>) {
    records.iter().for_each(|record| record.write(bytes));
}
