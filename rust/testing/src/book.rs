//! The records of a book and their bytes: the layout of the scope document and
//! none of its rules. Any value of any field can be written, good or bad.

use crate::field::{read_records, record, write_records, Field};

record! {
    /// The header, 24 bytes.
    Header {
        mark: [u8; 3],
        reserved: u8,
        version: u16,
        interval: u16,
        date: u32,
        run: u16,
        constraints: u16,
        units: u16,
        energies: u16,
        contracts: u16,
        reserved_end: u16,
    }
}

record! {
    /// What the energy rows of one region add up to, 12 bytes.
    RegionEntry {
        ace: i32,
        asoe: i32,
        residual: i32,
    }
}

record! {
    /// A constraint, 40 bytes.
    Constraint {
        id: u32,
        service: u8,
        regions: u8,
        mode: u8,
        reserved: u8,
        cost: i64,
        price: u32,
        rcr: u32,
        usage: u32,
        rcf: i32,
        drcf: i32,
        reserved_end: u32,
    }
}

record! {
    /// A unit row, 20 bytes.
    UnitRow {
        constraint: u32,
        unit: u32,
        account: u32,
        cf: i32,
        dcf: i32,
    }
}

record! {
    /// An energy row, 24 bytes.
    EnergyRow {
        account: u32,
        region: u8,
        reserved: [u8; 3],
        ace: i32,
        asoe: i32,
        residual_ace: i32,
        residual_asoe: i32,
    }
}

record! {
    /// A restart contract, 36 bytes.
    Contract {
        id: u32,
        kind: u8,
        reserved: [u8; 3],
        payment: i64,
        factors: [u32; 5],
    }
}

/// Records of one kind, side by side in the book.
#[derive(Clone, Copy, Debug)]
pub struct Section {
    pub start: usize,
    pub count: usize,
    pub record_size: usize,
}

impl Section {
    fn from<R: Field>(start: usize, count: usize) -> Self {
        Section {
            start,
            count,
            record_size: R::SIZE,
        }
    }

    /// The offset of one record; that of record `count` is the section's end.
    pub fn offset(&self, record: usize) -> usize {
        self.start + record * self.record_size
    }

    pub fn end(&self) -> usize {
        self.offset(self.count)
    }
}

/// Where each section stands, by the counts of the header.
#[derive(Clone, Copy, Debug)]
pub struct Sections {
    pub regions: Section,
    pub constraints: Section,
    pub units: Section,
    pub energies: Section,
    pub contracts: Section,
}

impl Sections {
    pub fn of(header: &Header) -> Self {
        let regions = Section::from::<RegionEntry>(Header::SIZE, 5);
        let constraints =
            Section::from::<Constraint>(regions.end(), usize::from(header.constraints));
        let units = Section::from::<UnitRow>(constraints.end(), usize::from(header.units));
        let energies = Section::from::<EnergyRow>(units.end(), usize::from(header.energies));
        let contracts = Section::from::<Contract>(energies.end(), usize::from(header.contracts));
        Sections {
            regions,
            constraints,
            units,
            energies,
            contracts,
        }
    }

    /// The length that the counts give.
    pub fn book_length(&self) -> usize {
        self.contracts.end()
    }
}

/// A whole book, record by record.
#[derive(Clone, Debug, Default, PartialEq, Eq)]
pub struct Book {
    pub header: Header,
    pub regions: [RegionEntry; 5],
    pub constraints: Vec<Constraint>,
    pub units: Vec<UnitRow>,
    pub energies: Vec<EnergyRow>,
    pub contracts: Vec<Contract>,
}

impl Book {
    /// Reads a book of just the length that its counts give; panics if it is shorter.
    pub fn decode(bytes: &[u8]) -> Self {
        let mut rest = bytes;
        let header = Header::read(&mut rest);
        Book {
            header,
            regions: Field::read(&mut rest),
            constraints: read_records(&mut rest, header.constraints),
            units: read_records(&mut rest, header.units),
            energies: read_records(&mut rest, header.energies),
            contracts: read_records(&mut rest, header.contracts),
        }
    }

    /// The book's bytes. The counts are those of the records that are there,
    /// whatever the header says.
    pub fn encode(&self) -> Vec<u8> {
        let mut bytes = Vec::new();
        self.encode_into(&mut bytes);
        bytes
    }

    /// As [`Book::encode`], into a buffer whose room is used again.
    pub fn encode_into(&self, bytes: &mut Vec<u8>) {
        bytes.clear();
        self.counted_header().write(bytes);
        self.regions.write(bytes);
        write_records(&self.constraints, bytes);
        write_records(&self.units, bytes);
        write_records(&self.energies, bytes);
        write_records(&self.contracts, bytes);
    }

    /// The header with the counts of the records that are there.
    pub fn counted_header(&self) -> Header {
        let count = |records: usize| u16::try_from(records).expect("a count has 16 bits");
        Header {
            constraints: count(self.constraints.len()),
            units: count(self.units.len()),
            energies: count(self.energies.len()),
            contracts: count(self.contracts.len()),
            ..self.header
        }
    }

    /// Sets the region entries to the sums of the energy rows.
    pub fn total_regions(&mut self) {
        self.regions = Default::default();
        for row in &self.energies {
            if let Some(entry) = self.regions.get_mut(usize::from(row.region)) {
                let residual = row.residual_asoe.wrapping_sub(row.residual_ace);
                entry.ace = entry.ace.wrapping_add(row.ace);
                entry.asoe = entry.asoe.wrapping_add(row.asoe);
                entry.residual = entry.residual.wrapping_add(residual);
            }
        }
    }
}
