//! Ways in which an accepted book becomes a wrong one by a single cause, and a
//! few changes that leave it right, close to where it would be wrong.

use crate::book::{Book, Constraint, Contract, EnergyRow, UnitRow};
use crate::requests::worked::energy_row;

/// Which record of a section is changed.
#[derive(Clone, Copy, Debug, PartialEq, Eq)]
pub enum Spot {
    First,
    Middle,
    Last,
}

impl Spot {
    pub const ALL: [Spot; 3] = [Spot::First, Spot::Middle, Spot::Last];

    /// The place among so many, if there are any.
    pub fn index(self, count: usize) -> Option<usize> {
        let last = count.checked_sub(1)?;
        Some(match self {
            Spot::First => 0,
            Spot::Middle => last / 2,
            Spot::Last => last,
        })
    }
}

/// A change of one cause. Where the book has no record that it needs, it leaves
/// the book as it is; in some books another fault comes of it as well.
pub struct Fault {
    /// The number it is made for, 0 if the book is to stay accepted.
    pub gives: u8,
    pub name: &'static str,
    pub apply: fn(&mut Book, Spot),
}

const fn fault(gives: u8, name: &'static str, apply: fn(&mut Book, Spot)) -> Fault {
    Fault { gives, name, apply }
}

/// Every fault of this file.
pub fn all() -> impl Iterator<Item = &'static Fault> {
    [FIELDS, ORDER, NAMES, FACTORS, ENTRIES, DIVISORS]
        .into_iter()
        .flatten()
}

/// Check 5, where one field's rule hangs on another; the plain ranges are in
/// `edges`.
const FIELDS: &[Fault] = &[
    fault(5, "residual ACE one below ACE", |book, spot| {
        change(&mut book.energies, spot, |row| {
            row.residual_ace = row.ace - 1
        })
    }),
    fault(5, "residual ASOE one above ASOE", |book, spot| {
        change(&mut book.energies, spot, |row| {
            row.residual_asoe = row.asoe + 1
        })
    }),
    fault(0, "all of a row's energy residual", |book, spot| {
        change(&mut book.energies, spot, |row| {
            row.residual_ace = row.ace;
            row.residual_asoe = row.asoe;
        });
        book.total_regions();
    }),
    fault(
        5,
        "highest price, RCR one past the product",
        |book, spot| priced(book, spot, 2_500_000, 2_400_001),
    ),
    fault(
        5,
        "highest RCR, price one past the product",
        |book, spot| priced(book, spot, 600_001, 10_000_000),
    ),
    fault(5, "least product past its bound", |book, spot| {
        priced(book, spot, 908_289, 6_605_827)
    }),
    fault(5, "product that 32 bits would cut to 0", |book, spot| {
        priced(book, spot, 1 << 21, 1 << 23)
    }),
    fault(0, "highest price, product at its bound", |book, spot| {
        priced(book, spot, 2_500_000, 2_400_000)
    }),
    fault(0, "highest RCR, product at its bound", |book, spot| {
        priced(book, spot, 600_000, 10_000_000)
    }),
    fault(5, "benefit factors make one too much", |book, spot| {
        change(&mut book.contracts, spot, |contract| {
            shift_highest(contract, 1)
        })
    }),
    fault(5, "benefit factors make one too little", |book, spot| {
        change(&mut book.contracts, spot, |contract| {
            shift_highest(contract, -1)
        })
    }),
    fault(
        5,
        "benefit factors that 32 bits would cut to 1,000,000",
        |book, spot| benefit(book, spot, [1_000_001, u32::MAX, 0, 0, 0]),
    ),
    fault(5, "no benefit factor", |book, spot| {
        benefit(book, spot, [0; 5])
    }),
    fault(5, "twice the whole benefit", |book, spot| {
        benefit(book, spot, [1_000_000, 0, 0, 0, 1_000_000])
    }),
];

/// Check 6.
const ORDER: &[Fault] = &[
    fault(6, "same constraint id", |book, spot| {
        after(&mut book.constraints, spot, |before, this| {
            this.id = before.id
        })
    }),
    fault(6, "lower constraint id", |book, spot| {
        after(&mut book.constraints, spot, |before, this| {
            this.id = before.id.max(2) - 1
        })
    }),
    fault(6, "same constraint and unit", |book, spot| {
        after(&mut book.units, spot, |before, this| {
            (this.constraint, this.unit) = (before.constraint, before.unit);
        })
    }),
    fault(6, "same constraint, lower unit", |book, spot| {
        after(&mut book.units, spot, |before, this| {
            (this.constraint, this.unit) = (before.constraint, before.unit.max(2) - 1);
        })
    }),
    fault(6, "lower constraint, higher unit", |book, spot| {
        after(&mut book.units, spot, |before, this| {
            (this.constraint, this.unit) = (before.constraint.max(2) - 1, u32::MAX);
        })
    }),
    fault(6, "same account and region", |book, spot| {
        after(&mut book.energies, spot, |before, this| {
            (this.account, this.region) = (before.account, before.region);
        })
    }),
    fault(6, "same account, lower region", |book, spot| {
        after(&mut book.energies, spot, |before, this| {
            (this.account, this.region) = (before.account, before.region.max(1) - 1);
        })
    }),
    fault(6, "lower account, higher region", |book, spot| {
        after(&mut book.energies, spot, |before, this| {
            (this.account, this.region) = (before.account.max(2) - 1, 4);
        })
    }),
    fault(6, "same contract id", |book, spot| {
        after(&mut book.contracts, spot, |before, this| {
            this.id = before.id
        })
    }),
    fault(6, "lower contract id", |book, spot| {
        after(&mut book.contracts, spot, |before, this| {
            this.id = before.id.max(2) - 1
        })
    }),
    fault(6, "unit row before its forerunner", |book, spot| {
        after(&mut book.units, spot, std::mem::swap)
    }),
    fault(6, "energy row before its forerunner", |book, spot| {
        after(&mut book.energies, spot, std::mem::swap)
    }),
];

/// Check 7.
const NAMES: &[Fault] = &[
    fault(7, "names an id above its constraint's", |book, spot| {
        rename(book, spot, |row, _| row.constraint.saturating_add(1))
    }),
    fault(7, "names an id below its constraint's", |book, spot| {
        rename(book, spot, |row, _| row.constraint.max(2) - 1)
    }),
    fault(7, "names an id above all", |book, spot| {
        rename(book, spot, |_, _| u32::MAX)
    }),
    fault(7, "names an id below all", |book, spot| {
        rename(book, spot, |_, _| 1)
    }),
    fault(7, "names a contingency", |book, spot| {
        rename(book, spot, |row, constraints| {
            let contingency = constraints.iter().find(|constraint| constraint.mode == 0);
            contingency.map_or(row.constraint, |constraint| constraint.id)
        })
    }),
    fault(7, "named constraint becomes a contingency", |book, spot| {
        change(&mut book.constraints, spot, |constraint| {
            let Constraint {
                id, regions, cost, ..
            } = *constraint;
            *constraint = Constraint {
                id,
                regions,
                cost,
                service: 7,
                ..Constraint::default()
            };
        })
    }),
    fault(7, "named constraint goes", |book, spot| {
        remove(&mut book.constraints, spot)
    }),
    fault(7, "named constraint gets another id", |book, spot| {
        change(&mut book.constraints, spot, |constraint| {
            constraint.id = constraint.id.saturating_add(1)
        })
    }),
];

/// Check 8.
const FACTORS: &[Fault] = &[
    fault(8, "RCF one up", |book, spot| {
        with_units(book, spot, 1, |of, _| of.rcf += 1)
    }),
    fault(8, "RCF one down", |book, spot| {
        with_units(book, spot, 1, |of, _| of.rcf -= 1)
    }),
    fault(8, "DRCF one up", |book, spot| {
        with_units(book, spot, 1, |of, _| of.drcf += 1)
    }),
    fault(8, "DRCF one down", |book, spot| {
        with_units(book, spot, 1, |of, _| of.drcf -= 1)
    }),
    fault(8, "default DRCF one up", |book, spot| {
        with_units(book, spot, 2, |of, _| of.drcf += 1)
    }),
    fault(8, "default DRCF one down", |book, spot| {
        with_units(book, spot, 2, |of, _| of.drcf -= 1)
    }),
    fault(8, "CF one up", |book, spot| {
        change(&mut book.units, spot, |row| row.cf += 1)
    }),
    fault(8, "CF one down", |book, spot| {
        change(&mut book.units, spot, |row| row.cf -= 1)
    }),
    fault(8, "DCF one up", |book, spot| {
        change(&mut book.units, spot, |row| row.dcf += 1)
    }),
    fault(8, "DCF one down", |book, spot| {
        change(&mut book.units, spot, |row| row.dcf -= 1)
    }),
    fault(8, "no DCF and no DRCF", |book, spot| {
        with_units(book, spot, 1, |constraint, rows| {
            constraint.drcf = 0;
            rows.iter_mut().for_each(|row| row.dcf = 0);
        })
    }),
    fault(8, "both sides of the factors one wider", |book, spot| {
        with_units(book, spot, 1, |constraint, rows| widen(constraint, rows, 1))
    }),
    fault(8, "both sides of the factors one narrower", |book, spot| {
        with_units(book, spot, 1, |constraint, rows| {
            widen(constraint, rows, -1)
        })
    }),
    fault(8, "all factors 0", |book, spot| {
        with_units(book, spot, 1, |constraint, rows| {
            constraint.rcf = 0;
            rows.iter_mut().for_each(|row| row.cf = 0);
        })
    }),
    fault(0, "all factors of the other sign", |book, spot| {
        with_units(book, spot, 1, |constraint, rows| {
            constraint.rcf = -constraint.rcf;
            rows.iter_mut().for_each(|row| row.cf = -row.cf);
        })
    }),
    fault(
        0,
        "a unit's default taken over by the residual",
        |book, spot| {
            with_units(book, spot, 1, |constraint, rows| {
                constraint.drcf += std::mem::take(&mut rows[0].dcf)
            })
        },
    ),
    fault(
        8,
        "a default's units have factors that balance",
        |book, spot| {
            with_units(book, spot, 2, |_, rows| {
                if let [first, .., last] = rows {
                    (first.cf, last.cf) = (-1_000_000, 1_000_000);
                }
            })
        },
    ),
    fault(8, "a default's last unit has a factor", |book, spot| {
        with_units(book, spot, 2, |_, rows| {
            if let [.., last] = rows {
                last.cf = -1;
            }
        })
    }),
    fault(
        8,
        "factored becomes default, its units keep their factors",
        |book, spot| {
            with_units(book, spot, 1, |constraint, _| {
                constraint.mode = 2;
                (constraint.price, constraint.rcr, constraint.usage) = (0, 0, 0);
                constraint.rcf = 0;
            })
        },
    ),
    fault(8, "unit row goes", |book, spot| {
        remove(&mut book.units, spot)
    }),
    fault(8, "all unit rows go", |book, _| book.units.clear()),
];

/// Check 9.
const ENTRIES: &[Fault] = &[
    fault(9, "entry's ACE one up", |book, spot| {
        change(&mut book.regions, spot, |of| of.ace += 1)
    }),
    fault(9, "entry's ACE one down", |book, spot| {
        change(&mut book.regions, spot, |of| of.ace -= 1)
    }),
    fault(9, "entry's ASOE one up", |book, spot| {
        change(&mut book.regions, spot, |of| of.asoe += 1)
    }),
    fault(9, "entry's ASOE one down", |book, spot| {
        change(&mut book.regions, spot, |of| of.asoe -= 1)
    }),
    fault(9, "entry's residual one up", |book, spot| {
        change(&mut book.regions, spot, |of| of.residual += 1)
    }),
    fault(9, "entry's residual one down", |book, spot| {
        change(&mut book.regions, spot, |of| of.residual -= 1)
    }),
    fault(9, "entry takes the one before", |book, spot| {
        after(&mut book.regions, spot, |before, this| *this = *before)
    }),
    fault(9, "row's ACE one down", |book, spot| {
        change(&mut book.energies, spot, |row| row.ace -= 1)
    }),
    fault(9, "row's ASOE one up", |book, spot| {
        change(&mut book.energies, spot, |row| row.asoe += 1)
    }),
    fault(9, "row's residual ACE gone", |book, spot| {
        change(&mut book.energies, spot, |row| row.residual_ace = 0)
    }),
    fault(9, "row's residual ASOE all of it", |book, spot| {
        change(&mut book.energies, spot, |row| row.residual_asoe = row.asoe)
    }),
    fault(9, "row in the next region", |book, spot| {
        change(&mut book.energies, spot, |row| {
            row.region = (row.region + 1) % 5
        });
        book.energies.sort_by_key(|row| (row.account, row.region));
    }),
    fault(9, "energy row goes", |book, spot| {
        remove(&mut book.energies, spot)
    }),
    fault(
        9,
        "ACE that 32 bits would cut to its entry",
        |book, spot| wrap_sums(book, spot, |kwh| [-kwh, 1, 0, 1]),
    ),
    fault(
        9,
        "ASOE that 32 bits would cut to its entry",
        |book, spot| wrap_sums(book, spot, |kwh| [-1, kwh, -1, 0]),
    ),
];

/// Check 10.
const DIVISORS: &[Fault] = &[
    fault(10, "no ASOE for a raise contingency", |book, spot| {
        silence_constraint(book, spot, &[1, 3, 5, 7], no_asoe)
    }),
    fault(10, "no ACE for a lower contingency", |book, spot| {
        silence_constraint(book, spot, &[2, 4, 6, 8], no_ace)
    }),
    fault(10, "no residual for regulation", |book, spot| {
        silence_constraint(book, spot, &[9, 10], no_residual)
    }),
    fault(10, "no residual and no cost", |book, spot| {
        change(&mut book.constraints, spot, |constraint| {
            constraint.cost = 0
        });
        silence_constraint(book, spot, &[9, 10], no_residual);
    }),
    fault(10, "no ACE for a contract", |book, spot| {
        silence_contract(book, spot, no_ace)
    }),
    fault(10, "no ASOE for a contract", |book, spot| {
        silence_contract(book, spot, no_asoe)
    }),
    fault(0, "no residual for a contract", |book, spot| {
        silence_contract(book, spot, no_residual)
    }),
    fault(
        10,
        "no ASOE for a contract without payment",
        |book, spot| {
            change(&mut book.contracts, spot, |contract| contract.payment = 0);
            silence_contract(book, spot, no_asoe);
        },
    ),
    fault(10, "no energy at all", |book, _| {
        silence(book, 31, no_ace);
        silence(book, 31, no_asoe);
    }),
    fault(
        10,
        "contract benefits a region without rows",
        |book, spot| {
            if let Some(region) = book
                .regions
                .iter()
                .position(|of| of.ace == 0 || of.asoe == 0)
            {
                let mut factors = [0; 5];
                factors[region] = 1_000_000;
                benefit(book, spot, factors);
            }
        },
    ),
    fault(10, "constraint in a region without rows", |book, spot| {
        if let Some(region) = book.regions.iter().position(|of| of.residual == 0) {
            change(&mut book.constraints, spot, |constraint| {
                constraint.regions = 1 << region
            });
        }
    }),
    fault(0, "constraint in every region", |book, spot| {
        change(&mut book.constraints, spot, |constraint| {
            constraint.regions = 31
        })
    }),
];

/// Changes one record.
fn change<R>(records: &mut [R], spot: Spot, how: impl FnOnce(&mut R)) {
    if let Some(index) = spot.index(records.len()) {
        how(&mut records[index]);
    }
}

/// Changes a record together with its forerunner.
fn after<R>(records: &mut [R], spot: Spot, how: impl FnOnce(&mut R, &mut R)) {
    if let Some(index) = spot.index(records.len().saturating_sub(1)) {
        if let [before, this] = &mut records[index..index + 2] {
            how(before, this);
        }
    }
}

fn remove<R>(records: &mut Vec<R>, spot: Spot) {
    if let Some(index) = spot.index(records.len()) {
        records.remove(index);
    }
}

/// Gives a factored constraint a price and a response.
fn priced(book: &mut Book, spot: Spot, price: u32, rcr: u32) {
    with_units(book, spot, 1, |constraint, _| {
        (constraint.price, constraint.rcr) = (price, rcr);
    });
}

fn benefit(book: &mut Book, spot: Spot, factors: [u32; 5]) {
    change(&mut book.contracts, spot, |contract| {
        contract.factors = factors
    });
}

/// Changes the highest benefit factor of a contract by one.
fn shift_highest(contract: &mut Contract, by: i32) {
    if let Some(highest) = contract.factors.iter_mut().max() {
        *highest = highest.wrapping_add_signed(by);
    }
}

/// Lets a unit row name another constraint and keeps the rows in order.
fn rename(book: &mut Book, spot: Spot, name: fn(&UnitRow, &[Constraint]) -> u32) {
    let Book {
        units, constraints, ..
    } = book;
    change(units, spot, |row| row.constraint = name(row, constraints));
    units.sort_by_key(|row| (row.constraint, row.unit));
}

/// Changes a constraint of the given mode and its unit rows, where it has any.
fn with_units(
    book: &mut Book,
    spot: Spot,
    mode: u8,
    how: impl FnOnce(&mut Constraint, &mut [UnitRow]),
) {
    let Book {
        units, constraints, ..
    } = book;
    let mut of_mode: Vec<&mut Constraint> = constraints
        .iter_mut()
        .filter(|constraint| constraint.mode == mode)
        .collect();
    change(&mut of_mode, spot, |constraint| {
        let named = |row: &UnitRow| row.constraint == constraint.id;
        let Some(start) = units.iter().position(named) else {
            return;
        };
        let count = units[start..].iter().take_while(|row| named(row)).count();
        how(constraint, &mut units[start..start + count]);
    });
}

/// Moves a positive and a negative factor apart: their sum stays what it was.
fn widen(constraint: &mut Constraint, rows: &mut [UnitRow], by: i32) {
    let mut factors: Vec<&mut i32> = rows
        .iter_mut()
        .map(|row| &mut row.cf)
        .chain([&mut constraint.rcf])
        .collect();
    if let Some(positive) = factors.iter_mut().find(|factor| ***factor > 0) {
        **positive += by;
    }
    if let Some(negative) = factors.iter_mut().find(|factor| ***factor < 0) {
        **negative -= by;
    }
}

/// Gives one region rows whose energies of one kind make 2^32 more than its
/// entry says.
fn wrap_sums(book: &mut Book, spot: Spot, energies: fn(i32) -> [i32; 4]) {
    const FULL_ROWS: u32 = 214;
    let region = spot.index(5).map_or(0, |index| index as u8);
    let rest = (1_u64 << 32) - u64::from(FULL_ROWS) * 20_000_000;
    let row = |account, kwh| energy_row(account, region, energies(kwh));
    book.energies = (1..=FULL_ROWS)
        .map(|account| row(account, 20_000_000))
        .collect();
    book.energies.push(row(FULL_ROWS + 1, rest as i32));
    book.energies.push(row(FULL_ROWS + 2, 1));
    book.total_regions();
}

/// Takes energy from every row of the regions, and from their entries.
fn silence(book: &mut Book, regions: u8, quiet: fn(&mut EnergyRow)) {
    let silent = |row: &&mut EnergyRow| regions & (1 << row.region) != 0;
    book.energies.iter_mut().filter(silent).for_each(quiet);
    book.total_regions();
}

fn no_ace(row: &mut EnergyRow) {
    (row.ace, row.residual_ace) = (0, 0);
}

fn no_asoe(row: &mut EnergyRow) {
    (row.asoe, row.residual_asoe) = (0, 0);
}

fn no_residual(row: &mut EnergyRow) {
    (row.residual_ace, row.residual_asoe) = (0, 0);
}

/// Silences the regions of a constraint of one of the services.
fn silence_constraint(book: &mut Book, spot: Spot, services: &[u8], quiet: fn(&mut EnergyRow)) {
    let of_services: Vec<u8> = book
        .constraints
        .iter()
        .filter(|constraint| services.contains(&constraint.service))
        .map(|constraint| constraint.regions)
        .collect();
    if let Some(index) = spot.index(of_services.len()) {
        silence(book, of_services[index], quiet);
    }
}

/// Silences one region that a contract benefits, by spot as well.
fn silence_contract(book: &mut Book, spot: Spot, quiet: fn(&mut EnergyRow)) {
    let Some(index) = spot.index(book.contracts.len()) else {
        return;
    };
    let factors = book.contracts[index].factors;
    let benefiting: Vec<usize> = (0..5).filter(|&region| factors[region] != 0).collect();
    if let Some(index) = spot.index(benefiting.len()) {
        silence(book, 1 << benefiting[index], quiet);
    }
}
