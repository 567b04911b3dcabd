//! The reconciliation file for restart contracts. To write it, what the lines say is made
//! once, their lengths are added up, and then they are written from the first byte to the
//! last. To read it, each byte is passed once.

use super::check::{factors, is_date, ENERGY_LIMIT, MONEY_LIMIT, TEST, WHOLE};
use super::layout::{u16_at, u32_at, u64_at, Sections};
use super::shares::{halves, share};
use super::statement::{counted, Energies};
use crate::{Books, NmasRow, Refusal};

const PAYMENT_TYPES: [&[u8]; 3] = [b"AVAILABILITY,", b"ENABLEMENT,", b"COMPENSATION,"];
const REGIONS: [&[u8]; 5] = [b"NSW1,", b"QLD1,", b"SA1,", b"TAS1,", b"VIC1,"];
const SERVICE: &[u8] = b"RESTART,";

/// 16 contracts that benefit five regions.
const MOST_LINES: usize = 80;

pub fn nmas(
    books: Books,
    account: u32,
    payment_type: u64,
    buffer: &mut [u8],
) -> Result<usize, Refusal> {
    let number = usize::try_from(payment_type).ok();
    let word = number.and_then(|number| PAYMENT_TYPES.get(number));
    let payment_type = word.ok_or(Refusal {
        number: 15,
        place: 0,
    })?;
    let counted = counted(books, account)?;
    let sections = &counted.sections;
    let mut shares = [Share::default(); MOST_LINES];
    let count = fill(sections, &counted.energies(), &mut shares);
    let shares = &shares[..count];
    let front = Front::of(sections, account);
    let common = front.length + payment_type.len();
    let length = shares.iter().map(|of| common + of.length()).sum();
    let text = buffer.get_mut(..length).ok_or(Refusal {
        number: 13,
        place: 0,
    })?;
    let mut out = Out { rest: text };
    for share in shares {
        out.line(&front, payment_type, share);
    }
    Ok(length)
}

/// What a line says that the others need not, in sizes.
#[derive(Clone, Copy, Default)]
struct Share {
    contract: u32,
    region: usize,
    factor: u32,
    payment: u64,
    /// Own and total ACE, own and total ASOE.
    energies: [u32; 4],
    by_ace: u64,
    by_asoe: u64,
}

/// Makes the account's shares of every contract in the regions that benefit, and gives how
/// many they are.
fn fill(
    sections: &Sections,
    (energies, locked): &(Energies, Energies),
    shares: &mut [Share; MOST_LINES],
) -> usize {
    let mut count = 0;
    for record in sections.contracts {
        let of = if record[4] == TEST { locked } else { energies };
        for (region, factor) in factors(record).into_iter().enumerate() {
            if factor != 0 {
                shares[count] = Share::of(record, region, factor, of);
                count += 1;
            }
        }
    }
    count
}

impl Share {
    #[inline(always)]
    fn of(record: &[u8; 36], region: usize, factor: u32, of: &Energies) -> Self {
        let payment = u64_at(record, 8);
        let [consumed, sent_out] = halves(payment, factor);
        let [own_ace, own_asoe, _] = of.own[region];
        let [ace, asoe, _] = of.total[region];
        Share {
            contract: u32_at(record, 0),
            region,
            factor,
            payment,
            energies: [own_ace, ace, own_asoe, asoe],
            by_ace: share(consumed, own_ace.into(), ace.into()),
            by_asoe: share(sent_out, own_asoe.into(), asoe.into()),
        }
    }

    /// How many bytes they take, the commas and the line feed behind them too.
    #[inline(always)]
    fn length(&self) -> usize {
        let [own_ace, ace, own_asoe, asoe] = self.energies;
        let factor = "0.000000,".len();
        digits(self.contract)
            + ",".len()
            + REGIONS[self.region].len()
            + factor
            + money_length(self.payment)
            + debt_length(self.by_ace + self.by_asoe)
            + debt_length(self.by_ace)
            + debt_length(self.by_asoe)
            + usize::from(own_ace != 0)
            + usize::from(ace != 0)
            + energy_length(own_ace)
            + energy_length(ace)
            + energy_length(own_asoe)
            + energy_length(asoe)
    }
}

#[inline(always)]
fn digits(number: u32) -> usize {
    number.checked_ilog10().unwrap_or(0) as usize + 1
}

#[inline(always)]
fn money_length(size: u64) -> usize {
    digits((size / 10_000) as u32) + ".0000,".len()
}

#[inline(always)]
fn debt_length(size: u64) -> usize {
    usize::from(size != 0) + money_length(size)
}

#[inline(always)]
fn energy_length(size: u32) -> usize {
    digits(size / 1_000) + ".000,".len()
}

/// What stands at the front of every line: date, run, interval, account and service.
struct Front {
    bytes: [u8; 40],
    length: usize,
}

impl Front {
    fn of(sections: &Sections, account: u32) -> Self {
        let header = sections.header;
        let mut bytes = [0; 40];
        let mut out = Out { rest: &mut bytes };
        out.number(u32_at(header, 8));
        out.number(u16_at(header, 12).into());
        out.number(u16_at(header, 6).into());
        out.number(account);
        out.word(SERVICE);
        let length = 40 - out.rest.len();
        Front { bytes, length }
    }
}

/// Where the next bytes go. What is written is followed by a comma.
struct Out<'b> {
    rest: &'b mut [u8],
}

impl<'b> Out<'b> {
    #[inline(always)]
    fn line(&mut self, front: &Front, payment_type: &[u8], share: &Share) {
        let [own_ace, ace, own_asoe, asoe] = share.energies;
        self.word(&front.bytes[..front.length]);
        self.number(share.contract);
        self.word(payment_type);
        self.word(REGIONS[share.region]);
        self.decimal::<6>(share.factor / 1_000_000, share.factor % 1_000_000);
        self.money(share.payment);
        self.debt(share.by_ace + share.by_asoe);
        self.consumed(own_ace);
        self.consumed(ace);
        self.energy(own_asoe);
        self.energy(asoe);
        self.debt(share.by_ace);
        let last = self.debt(share.by_asoe);
        *last = b'\n';
    }

    /// Takes so many bytes from the front.
    #[inline(always)]
    fn take(&mut self, count: usize) -> &'b mut [u8] {
        let rest = std::mem::take(&mut self.rest);
        let (front, rest) = rest.split_at_mut(count);
        self.rest = rest;
        front
    }

    #[inline(always)]
    fn word(&mut self, word: &[u8]) {
        self.take(word.len()).copy_from_slice(word);
    }

    #[inline(always)]
    fn number(&mut self, number: u32) {
        let count = digits(number);
        let slot = self.take(count + 1);
        put_digits(&mut slot[..count], number);
        slot[count] = b',';
    }

    /// Gives the comma behind it.
    #[inline(always)]
    fn decimal<const PLACES: usize>(&mut self, whole: u32, fraction: u32) -> &'b mut u8 {
        let count = digits(whole);
        let (front, behind) = self.take(count + PLACES + 2).split_at_mut(count);
        put_digits(front, whole);
        behind[0] = b'.';
        put_digits(&mut behind[1..=PLACES], fraction);
        let comma = &mut behind[PLACES + 1];
        *comma = b',';
        comma
    }

    #[inline(always)]
    fn money(&mut self, size: u64) -> &'b mut u8 {
        self.decimal::<4>((size / 10_000) as u32, (size % 10_000) as u32)
    }

    #[inline(always)]
    fn debt(&mut self, size: u64) -> &'b mut u8 {
        if size != 0 {
            self.word(b"-");
        }
        self.money(size)
    }

    #[inline(always)]
    fn energy(&mut self, size: u32) {
        self.decimal::<3>(size / 1_000, size % 1_000);
    }

    #[inline(always)]
    fn consumed(&mut self, size: u32) {
        if size != 0 {
            self.word(b"-");
        }
        self.energy(size);
    }
}

/// The digits of 00 to 99.
const PAIRS: [[u8; 2]; 100] = {
    let mut pairs = [[0; 2]; 100];
    let mut number = 0;
    while number < 100 {
        pairs[number] = [b'0' + (number / 10) as u8, b'0' + (number % 10) as u8];
        number += 1;
    }
    pairs
};

/// Fills the slot with the last digits of a number, two at a time.
#[inline(always)]
fn put_digits(slot: &mut [u8], mut number: u32) {
    let (odd, pairs) = slot.as_rchunks_mut();
    for pair in pairs.iter_mut().rev() {
        *pair = PAIRS[(number % 100) as usize];
        number /= 100;
    }
    if let [byte] = odd {
        *byte = b'0' + (number % 10) as u8;
    }
}

pub fn nmas_rows(text: &[u8]) -> Result<usize, Refusal> {
    read(text, |_, _| {})
}

pub fn nmas_row(text: &[u8], index: u64) -> Result<NmasRow, Refusal> {
    let mut found = None;
    read(text, |number, row| {
        if number as u64 == index {
            found = Some(row);
        }
    })?;
    found.ok_or(Refusal {
        number: 15,
        place: 0,
    })
}

/// Shows each row with its number, and gives how many there are.
#[inline(always)]
fn read(text: &[u8], mut on_row: impl FnMut(usize, NmasRow)) -> Result<usize, Refusal> {
    let mut taking = Taking { rest: text };
    let mut place = 0;
    while !taking.rest.is_empty() {
        let row = taking.row();
        on_row(place, row.ok_or(Refusal { number: 19, place })?);
        place += 1;
    }
    Ok(place)
}

/// The bytes that are not passed yet.
struct Taking<'t> {
    rest: &'t [u8],
}

impl Taking<'_> {
    #[inline(always)]
    fn row(&mut self) -> Option<NmasRow> {
        let row = NmasRow {
            date: self.whole(b',')?,
            run: self.whole(b',')?,
            interval: self.whole(b',')?,
            account: self.whole(b',')?,
            contract: {
                self.word(&[SERVICE])?;
                self.whole(b',')?
            },
            payment_type: self.word(&PAYMENT_TYPES)?,
            region: self.word(&REGIONS)?,
            factor: self.decimal::<7>(b',')?,
            payment: self.decimal::<5>(b',')?,
            recovery: self.negative::<5>(b',')?,
            own_ace: self.negative::<4>(b',')?,
            region_ace: self.negative::<4>(b',')?,
            own_asoe: self.decimal::<4>(b',')?,
            region_asoe: self.decimal::<4>(b',')?,
            by_ace: self.negative::<5>(b',')?,
            by_asoe: self.negative::<5>(b'\n')?,
        };
        holds(&row).then_some(row)
    }

    /// Which of the words stands here.
    #[inline(always)]
    fn word(&mut self, words: &[&[u8]]) -> Option<usize> {
        let found = words.iter().position(|word| self.rest.starts_with(word))?;
        self.rest = &self.rest[words[found].len()..];
        Some(found)
    }

    /// A number of up to ten digits, the most of any range, and the byte behind it.
    #[inline(always)]
    fn whole(&mut self, end: u8) -> Option<i64> {
        let (mut value, mut count) = (0, 0);
        let behind = loop {
            let byte = *self.rest.get(count)?;
            let digit = byte.wrapping_sub(b'0');
            if digit > 9 {
                break byte;
            }
            value = value * 10 + i64::from(digit);
            count += 1;
            if count > 10 {
                return None;
            }
        };
        let has_spare_zero = count > 1 && self.rest[0] == b'0';
        let holds = (count > 0) & !has_spare_zero & (behind == end);
        self.rest = &self.rest[count + 1..];
        holds.then_some(value)
    }

    /// A number with decimals, in units of the last one. These and the byte behind them
    /// are `N` bytes.
    #[inline(always)]
    fn decimal<const N: usize>(&mut self, end: u8) -> Option<i64> {
        let mut value = self.whole(b'.')?;
        let (places, rest) = self.rest.split_first_chunk::<N>()?;
        let mut holds = places[N - 1] == end;
        for byte in &places[..N - 1] {
            let digit = byte.wrapping_sub(b'0');
            holds &= digit <= 9;
            value = value * 10 + i64::from(digit);
        }
        self.rest = rest;
        holds.then_some(value)
    }

    /// One that has a minus, unless it is 0.
    #[inline(always)]
    fn negative<const N: usize>(&mut self, end: u8) -> Option<i64> {
        let (minus, rest) = match self.rest.strip_prefix(b"-") {
            Some(rest) => (true, rest),
            None => (false, self.rest),
        };
        self.rest = rest;
        let size = self.decimal::<N>(end)?;
        (minus == (size != 0)).then_some(-size)
    }
}

/// Whether the numbers are in their ranges; none has a sign that it may not have.
#[inline(always)]
fn holds(row: &NmasRow) -> bool {
    let energies = [row.own_ace, row.region_ace, row.own_asoe, row.region_asoe];
    let amounts = [row.payment, row.by_ace, row.by_asoe];
    let is_energy = |of: i64| of.unsigned_abs() <= ENERGY_LIMIT.into();
    let is_name = |of: i64| (1..=i64::from(u32::MAX)).contains(&of);
    u32::try_from(row.date).is_ok_and(is_date)
        & (1..=99).contains(&row.run)
        & (1..=288).contains(&row.interval)
        & is_name(row.account)
        & is_name(row.contract)
        & (1..=WHOLE as i64).contains(&row.factor)
        & energies.into_iter().all(is_energy)
        & amounts.iter().all(|of| of.unsigned_abs() <= MONEY_LIMIT)
        & (row.recovery == row.by_ace + row.by_asoe)
}
