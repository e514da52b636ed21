//! Format twelve, opening and closing prices: a count, then ten slots, of which the counted ones are used.
//!
//! In a counted slot twelve nines for the time mean a closing price, as the specification has it. A slot is counted if its
//! place, from 0, is below the count, whatever the count is.

use std::ops::RangeInclusive;

use crate::digits;
use crate::outline::GREATEST_NUMBER;
use crate::reading::Refusal;
use crate::times;
use crate::units::{code_at, is_code, Code, Price, Quantity};

pub const FORMAT: u8 = 12;
pub const VERSION: u8 = 3;
pub const LENGTHS: RangeInclusive<usize> = 374..=374;
pub const SLOTS: usize = 10;

/// Bytes of one slot.
const SLOT: usize = 36;

#[derive(Clone, Copy, Debug, PartialEq, Eq)]
pub struct Slot {
    pub code: Code,
    pub opening: Price,
    pub highest: Price,
    pub lowest: Price,
    pub last: Price,
    pub total: Quantity,
    /// HHMMSSffffff; twelve nines: `last` is the closing price.
    pub time: u64,
}

impl Slot {
    /// A slot after the count: six spaces, zeros elsewhere.
    pub const UNUSED: Slot = Slot {
        code: *b"      ",
        opening: Price(0),
        highest: Price(0),
        lowest: Price(0),
        last: Price(0),
        total: Quantity(0),
        time: 0,
    };

    /// `None` for a bad digit.
    fn unpack(field: &[u8]) -> Option<Slot> {
        Some(Slot {
            code: code_at(field),
            opening: Price::unpack(&field[6..11])?,
            highest: Price::unpack(&field[11..16])?,
            lowest: Price::unpack(&field[16..21])?,
            last: Price::unpack(&field[21..26])?,
            total: Quantity::unpack(&field[26..30])?,
            time: digits::number(&field[30..36])?,
        })
    }

    fn pack(&self, field: &mut [u8]) {
        field[..6].copy_from_slice(&self.code);
        self.opening.pack(&mut field[6..11]);
        self.highest.pack(&mut field[11..16]);
        self.lowest.pack(&mut field[16..21]);
        self.last.pack(&mut field[21..26]);
        self.total.pack(&mut field[26..30]);
        digits::pack(self.time, &mut field[30..36]);
    }

    pub fn is_closing(&self) -> bool {
        self.time == times::LONG_NINES
    }

    fn is_time(&self, counted: bool) -> bool {
        times::is_long(self.time) || counted && self.is_closing()
    }

    fn is_in_range(&self) -> bool {
        [self.opening, self.highest, self.lowest, self.last].iter().all(|price| *price <= Price::MAX)
            && self.total <= Quantity::MAX
    }
}

#[derive(Clone, Copy, Debug, PartialEq, Eq)]
pub struct Prices {
    pub number: u32,
    pub count: usize,
    pub slots: [Slot; SLOTS],
}

/// The count, and all that is neither a digit nor a time in the slots.
fn keeps_count(count: usize, slots: &[Slot; SLOTS]) -> bool {
    if !(1..=SLOTS).contains(&count) {
        return false;
    }
    let (counted, unused) = slots.split_at(count);
    counted.iter().all(|slot| is_code(&slot.code)) && unused.iter().all(|slot| *slot == Slot::UNUSED)
}

impl Prices {
    pub fn read(number: u32, body: &[u8]) -> Result<Prices, Refusal> {
        let count = digits::number(&body[..1]).ok_or(Refusal::Digit)? as usize;
        let mut slots = [Slot::UNUSED; SLOTS];
        for (slot, field) in slots.iter_mut().zip(body[1..].chunks_exact(SLOT)) {
            *slot = Slot::unpack(field).ok_or(Refusal::Digit)?;
        }
        if !slots.iter().enumerate().all(|(place, slot)| slot.is_time(place < count)) {
            return Err(Refusal::Time);
        }
        if !keeps_count(count, &slots) {
            return Err(Refusal::Field);
        }
        Ok(Prices { number, count, slots })
    }

    /// The counted slots.
    pub fn counted(&self) -> &[Slot] {
        &self.slots[..self.count]
    }

    /// Whether every field keeps its rule and range.
    pub fn keeps_rules(&self) -> bool {
        self.number <= GREATEST_NUMBER
            && keeps_count(self.count, &self.slots)
            && self.counted().iter().all(|slot| slot.is_in_range() && slot.is_time(true))
    }

    pub fn length(&self) -> usize {
        *LENGTHS.start()
    }

    /// Writes the body, for a message that keeps the rules.
    pub fn write(&self, body: &mut [u8]) {
        digits::pack(self.count as u64, &mut body[..1]);
        for (field, slot) in body[1..].chunks_exact_mut(SLOT).zip(&self.slots) {
            slot.pack(field);
        }
    }
}
