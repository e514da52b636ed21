//! Format six: live quotes.

use crate::outcome::{written, Frame, NotRead, NotWritten, Outcome};
use crate::raw;
use crate::units::{Code, Pair, Quantity, LONG_NINES};

/// A stock's quote. Its own reveal byte says which of the trade, the bids and the asks are used; the others are zero. It also
/// says whether the levels are shown at all: levels that are not shown are no empty sides.
///
/// The order of the fields is that of the library's numbers, so that a quote is read straight into them.
#[derive(Clone, Copy, Debug, Default, PartialEq, Eq, Hash)]
#[repr(C)]
pub struct Quote {
    /// HHMMSS and six digits of fraction; all nines in the day's last frame.
    pub time: u64,
    /// The frame's number.
    pub seq: u32,
    /// The quantity traded so far.
    pub total: Quantity,
    /// The trade, if the reveal byte shows one.
    pub trade: Pair,
    /// Best first. [`Quote::bids`] tells a side that is empty from one that is not shown.
    pub bids: [Pair; 5],
    /// Best first.
    pub asks: [Pair; 5],
    /// The stock.
    pub code: Code,
    /// Which pairs there are: the trade in bit 7, how many bids in bits 4 to 6, how many asks in bits 1 to 3. Bit 0 says that
    /// only the trade is sent: then both counts are 0, and anything else is refused, with 10 in reading and 14 in writing.
    pub reveal: u8,
    /// The limit byte as it stands in the frame.
    pub limit: u8,
    /// The status byte as it stands in the frame.
    pub status: u8,
}

impl Quote {
    /// The format's number.
    pub const FORMAT: u8 = 6;

    /// The trade, if there is one.
    #[inline]
    pub fn trade(&self) -> Option<Pair> {
        (self.reveal & 0x80 != 0).then_some(self.trade)
    }

    /// Whether the levels are shown. If not, only the trade is sent, and nothing is said of either side.
    #[inline]
    pub fn shows_levels(&self) -> bool {
        self.reveal & 1 == 0
    }

    /// The bid levels that are used, best first, and no level of a side that is empty; `None` if the levels are not shown.
    #[inline]
    pub fn bids(&self) -> Option<&[Pair]> {
        self.shows_levels().then(|| used(&self.bids, self.reveal >> 4))
    }

    /// The ask levels, likewise.
    #[inline]
    pub fn asks(&self) -> Option<&[Pair]> {
        self.shows_levels().then(|| used(&self.asks, self.reveal >> 1))
    }

    /// Whether this is the day's last frame.
    #[inline]
    pub fn ends_the_day(&self) -> bool {
        self.time == LONG_NINES
    }
}

/// The levels that are used of a side, whose count stands in the three lowest bits.
#[inline]
pub(crate) fn used(levels: &[Pair; 5], count: u8) -> &[Pair] {
    &levels[..usize::from(count & 7).min(5)]
}

/// Reads the quote at a place of a line.
#[inline]
pub fn read_quote(line: &[u8], at: usize) -> Result<(Frame, Quote), NotRead> {
    let mut quote = Quote::default();
    let frame = read_quote_into(line, at, &mut quote)?;
    Ok((frame, quote))
}

/// The same into a lent quote, without a copy. A refusal and an accepted frame of another format leave it as it was.
#[inline]
pub fn read_quote_into(line: &[u8], at: usize, quote: &mut Quote) -> Result<Frame, NotRead> {
    let frame = Outcome::of(raw::read_quote(line, at, quote)).frame_of(Quote::FORMAT)?;
    quote.seq = frame.seq;
    Ok(frame)
}

/// Writes a quote as a frame at the start of a buffer, and gives the frame's length.
#[inline]
pub fn write_quote(quote: &Quote, buffer: &mut [u8]) -> Result<usize, NotWritten> {
    written(raw::write_quote(quote, buffer))
}
