//! Format twelve: opening and closing prices.

use crate::outcome::{written, Frame, NotRead, NotWritten, Outcome};
use crate::raw;
use crate::units::{Code, Price, Quantity, LONG_NINES};

/// The prices of a slot, and its quantity so far.
#[derive(Clone, Copy, Debug, Default, PartialEq, Eq, Hash)]
#[repr(C)]
pub struct Amounts {
    /// The day's first price.
    pub opening: Price,
    /// The day's highest.
    pub highest: Price,
    /// The day's lowest.
    pub lowest: Price,
    /// The last one, which is the closing price where the slot's time is all nines.
    pub last: Price,
    /// The quantity traded so far.
    pub total: Quantity,
}

/// Ten slots, of which the first `count` hold stocks; the others have six spaces for a code and zeros elsewhere.
///
/// Codes, amounts and times stand apart, as the library's numbers do, so that prices are read straight into them.
#[derive(Clone, Copy, Debug, Default, PartialEq, Eq, Hash)]
pub struct Prices {
    /// The frame's number.
    pub seq: u32,
    /// How many slots are used, 1 to 10.
    pub count: u8,
    /// The slots' codes.
    pub codes: [Code; 10],
    /// Their prices and quantities.
    pub amounts: [Amounts; 10],
    /// HHMMSS and six digits of fraction; all nines where `last` is the closing price.
    pub times: [u64; 10],
}

/// One slot.
#[derive(Clone, Copy, Debug, PartialEq, Eq, Hash)]
pub struct Slot {
    /// The stock.
    pub code: Code,
    /// Its prices and its quantity.
    pub amounts: Amounts,
    /// HHMMSS and six digits of fraction, or all nines.
    pub time: u64,
}

impl Slot {
    /// Whether the last price is the closing price.
    #[inline]
    pub fn is_closing(&self) -> bool {
        self.time == LONG_NINES
    }
}

impl Prices {
    /// The format's number.
    pub const FORMAT: u8 = 12;

    /// Prices of these slots. No more than ten are kept; more are counted, so that writing them answers 14.
    pub fn new(seq: u32, slots: &[Slot]) -> Prices {
        let count = slots.len().min(255) as u8;
        let mut prices = Prices { seq, count, codes: [Code(*b"      "); 10], ..Prices::default() };
        for (place, slot) in slots.iter().enumerate().take(10) {
            prices.codes[place] = slot.code;
            prices.amounts[place] = slot.amounts;
            prices.times[place] = slot.time;
        }
        prices
    }

    /// The counted slots.
    pub fn slots(&self) -> impl Iterator<Item = Slot> + '_ {
        let whole = self.codes.iter().zip(&self.amounts).zip(&self.times);
        whole.take(usize::from(self.count)).map(|((&code, &amounts), &time)| Slot { code, amounts, time })
    }
}

/// Reads the prices at a place of a line.
#[inline]
pub fn read_prices(line: &[u8], at: usize) -> Result<(Frame, Prices), NotRead> {
    let mut prices = Prices::default();
    let frame = read_prices_into(line, at, &mut prices)?;
    Ok((frame, prices))
}

/// The same into lent prices, without a copy. A refusal and an accepted frame of another format leave them as they were.
#[inline]
pub fn read_prices_into(line: &[u8], at: usize, prices: &mut Prices) -> Result<Frame, NotRead> {
    let frame = Outcome::of(raw::read_prices(line, at, prices)).frame_of(Prices::FORMAT)?;
    prices.seq = frame.seq;
    Ok(frame)
}

/// Writes prices as a frame at the start of a buffer, and gives the frame's length.
#[inline]
pub fn write_prices(prices: &Prices, buffer: &mut [u8]) -> Result<usize, NotWritten> {
    written(raw::write_prices(prices, buffer))
}
