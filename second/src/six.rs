//! Format six, live quotes: code, time, reveal, limit and status bytes, total quantity, then as many pairs of price and
//! quantity as the reveal byte says, in the order trade, bids, asks.

use std::ops::RangeInclusive;

use crate::digits;
use crate::outline::GREATEST_NUMBER;
use crate::reading::Refusal;
use crate::times;
use crate::units::{code_at, is_code, Code, Price, Quantity, CODE_ZERO};

pub const FORMAT: u8 = 6;
pub const VERSION: u8 = 4;
pub const LENGTHS: RangeInclusive<usize> = 32..=131;
pub const MOST_LEVELS: usize = 5;
pub const MOST_PAIRS: usize = 1 + 2 * MOST_LEVELS;

/// Bytes of the body before the pairs, and of one pair.
const FIXED: usize = 19;
const PAIR: usize = Price::SIZE + Quantity::SIZE;

/// The place of the reveal byte in the body.
pub const REVEAL: usize = 12;

#[derive(Clone, Copy, Debug, Default, PartialEq, Eq)]
pub struct Pair {
    pub price: Price,
    pub quantity: Quantity,
}

/// What a reveal byte says is sent.
#[derive(Clone, Copy, Debug, PartialEq, Eq)]
pub struct Reveal {
    pub trade: bool,
    pub bids: usize,
    pub asks: usize,
    /// Only the trade is sent; the levels are not shown.
    pub trade_only: bool,
}

impl Reveal {
    pub fn of(byte: u8) -> Reveal {
        let levels = |bits: u8| usize::from(bits & 7);
        Reveal { trade: byte & 0x80 != 0, bids: levels(byte >> 4), asks: levels(byte >> 1), trade_only: byte & 1 != 0 }
    }

    /// Whether neither side has six or seven levels, nor any where only the trade is sent.
    pub fn is_possible(self) -> bool {
        let most = if self.trade_only { 0 } else { MOST_LEVELS };
        self.bids <= most && self.asks <= most
    }

    pub fn pairs(self) -> usize {
        usize::from(self.trade) + self.bids + self.asks
    }

    /// The length of a frame with these pairs.
    pub fn length(self) -> usize {
        *LENGTHS.start() + PAIR * self.pairs()
    }
}

#[derive(Clone, Copy, Debug, PartialEq, Eq)]
pub struct Quote {
    pub number: u32,
    pub code: Code,
    /// HHMMSSffffff.
    pub time: u64,
    pub reveal: u8,
    pub limit: u8,
    pub status: u8,
    pub total: Quantity,
    /// Trade, bids, asks; zero behind those that the reveal byte says.
    pub pairs: [Pair; MOST_PAIRS],
}

/// Twelve nines stand exactly with the code `000000`; any other time is a time of day.
fn is_time(time: u64, code: &Code) -> bool {
    if *code == CODE_ZERO {
        time == times::LONG_NINES
    } else {
        times::is_long(time)
    }
}

impl Quote {
    pub fn read(number: u32, body: &[u8]) -> Result<Quote, Refusal> {
        let reveal = Reveal::of(body[REVEAL]);
        if !reveal.is_possible() {
            return Err(Refusal::Levels);
        }
        if body.len() != FIXED + PAIR * reveal.pairs() {
            return Err(Refusal::Length);
        }
        let code = code_at(body);
        let time = digits::number(&body[6..12]).ok_or(Refusal::Digit)?;
        let total = Quantity::unpack(&body[15..19]).ok_or(Refusal::Digit)?;
        let mut pairs = [Pair::default(); MOST_PAIRS];
        for (pair, field) in pairs.iter_mut().zip(body[FIXED..].chunks_exact(PAIR)) {
            let (price, quantity) = field.split_at(Price::SIZE);
            pair.price = Price::unpack(price).ok_or(Refusal::Digit)?;
            pair.quantity = Quantity::unpack(quantity).ok_or(Refusal::Digit)?;
        }
        if !is_time(time, &code) {
            return Err(Refusal::Time);
        }
        if !is_code(&code) {
            return Err(Refusal::Field);
        }
        Ok(Quote { number, code, time, reveal: body[REVEAL], limit: body[13], status: body[14], total, pairs })
    }

    pub fn trade(&self) -> Option<Pair> {
        Reveal::of(self.reveal).trade.then_some(self.pairs[0])
    }

    /// The bid levels, best first; empty if there is none, and `None` if they are not shown.
    #[inline]
    pub fn bids(&self) -> Option<&[Pair]> {
        let reveal = Reveal::of(self.reveal);
        let first = usize::from(reveal.trade);
        (!reveal.trade_only).then(|| &self.pairs[first..first + reveal.bids])
    }

    /// The ask levels, best first; empty if there is none, and `None` if they are not shown.
    #[inline]
    pub fn asks(&self) -> Option<&[Pair]> {
        let reveal = Reveal::of(self.reveal);
        let first = usize::from(reveal.trade) + reveal.bids;
        (!reveal.trade_only).then(|| &self.pairs[first..first + reveal.asks])
    }

    /// Whether this is the day's last frame.
    pub fn ends_the_day(&self) -> bool {
        self.time == times::LONG_NINES
    }

    /// Whether every field keeps its rule and range.
    pub fn keeps_rules(&self) -> bool {
        let reveal = Reveal::of(self.reveal);
        if !reveal.is_possible() {
            return false;
        }
        let (used, unused) = self.pairs.split_at(reveal.pairs());
        self.number <= GREATEST_NUMBER
            && is_code(&self.code)
            && is_time(self.time, &self.code)
            && self.total <= Quantity::MAX
            && used.iter().all(|pair| pair.price <= Price::MAX && pair.quantity <= Quantity::MAX)
            && unused.iter().all(|pair| *pair == Pair::default())
    }

    /// The frame's length, for a message that keeps the rules.
    pub fn length(&self) -> usize {
        Reveal::of(self.reveal).length()
    }

    /// Writes the body, for a message that keeps the rules.
    pub fn write(&self, body: &mut [u8]) {
        body[..6].copy_from_slice(&self.code);
        digits::pack(self.time, &mut body[6..12]);
        body[REVEAL] = self.reveal;
        body[13] = self.limit;
        body[14] = self.status;
        self.total.pack(&mut body[15..19]);
        for (field, pair) in body[FIXED..].chunks_exact_mut(PAIR).zip(&self.pairs) {
            let (price, quantity) = field.split_at_mut(Price::SIZE);
            pair.price.pack(price);
            pair.quantity.pack(quantity);
        }
    }
}
