//! The header and the lines of a statement and their bytes: the layout of the
//! scope document and none of its rules.

use crate::field::{read_records, record, write_records, Field};
use crate::{Entry, Heading};

record! {
    /// The header, 24 bytes.
    Header {
        mark: [u8; 3],
        reserved: u8,
        version: u16,
        interval: u16,
        date: u32,
        run: u16,
        lines: u16,
        account: u32,
        reserved_end: u32,
    }
}

record! {
    /// A line, 24 bytes.
    Line {
        id: u32,
        part: u8,
        regions: u8,
        reserved: u16,
        unit: u32,
        reserved_mid: u32,
        amount: i64,
    }
}

impl Header {
    /// What the header says: all but mark, version and reserved bytes.
    pub fn heading(&self) -> Heading {
        Heading {
            account: self.account,
            date: self.date,
            interval: self.interval,
            run: self.run,
            lines: self.lines,
        }
    }
}

impl Line {
    /// What the line says: all but reserved bytes.
    pub fn entry(&self) -> Entry {
        Entry {
            id: self.id,
            part: self.part,
            regions: self.regions,
            unit: self.unit,
            amount: self.amount,
        }
    }
}

/// A whole statement, line by line.
#[derive(Clone, Debug, Default, PartialEq, Eq)]
pub struct Statement {
    pub header: Header,
    pub lines: Vec<Line>,
}

impl Statement {
    /// Reads a statement of just the length that its line count gives; panics if
    /// it is shorter.
    pub fn decode(bytes: &[u8]) -> Self {
        let mut rest = bytes;
        let header = Header::read(&mut rest);
        Statement {
            header,
            lines: read_records(&mut rest, header.lines),
        }
    }

    /// The statement's bytes. The line count is that of the lines that are there,
    /// whatever the header says.
    pub fn encode(&self) -> Vec<u8> {
        let header = Header {
            lines: u16::try_from(self.lines.len()).expect("a count has 16 bits"),
            ..self.header
        };
        let mut bytes = Vec::new();
        header.write(&mut bytes);
        write_records(&self.lines, &mut bytes);
        bytes
    }
}
