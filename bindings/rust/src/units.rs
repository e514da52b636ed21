//! Prices, quantities, pairs of them, index values, codes and the times that are all nines.

use std::fmt;

/// A price in ten-thousandths, up to 999,999,999. It is shown with its four decimals, whatever precision is asked for.
#[derive(Clone, Copy, Debug, Default, PartialEq, Eq, PartialOrd, Ord, Hash)]
#[repr(transparent)]
pub struct Price(pub u32);

/// A quantity in the stock's own trading units, up to 99,999,999.
#[derive(Clone, Copy, Debug, Default, PartialEq, Eq, PartialOrd, Ord, Hash)]
#[repr(transparent)]
pub struct Quantity(pub u32);

/// An index value in thousandths, up to 99,999,999. It is shown with its three decimals, whatever precision is asked for.
#[derive(Clone, Copy, Debug, Default, PartialEq, Eq, PartialOrd, Ord, Hash)]
#[repr(transparent)]
pub struct Thousandths(pub u32);

impl Thousandths {
    /// The largest value that a frame holds, 99,999.999.
    pub const MOST: Thousandths = Thousandths(99_999_999);
}

/// A price with the quantity offered or traded at it.
#[derive(Clone, Copy, Debug, Default, PartialEq, Eq, Hash)]
#[repr(C)]
pub struct Pair {
    /// The price.
    pub price: Price,
    /// The quantity.
    pub quantity: Quantity,
}

/// A code as it stands in the frame, with its spaces. It is shown without the spaces behind it; a byte that no code of an
/// accepted frame has, one outside 32 to 126, is shown as U+FFFD, which stands for no byte.
#[derive(Clone, Copy, Debug, Default, PartialEq, Eq, PartialOrd, Ord, Hash)]
#[repr(transparent)]
pub struct Code(pub [u8; 6]);

/// Twelve nines: in a quote the day's last frame, in prices a closing price.
pub const LONG_NINES: u64 = 999_999_999_999;

/// Six nines: in a halt a round's end, or a halt that is still open.
pub const SHORT_NINES: u32 = 999_999;

impl fmt::Display for Price {
    fn fmt(&self, f: &mut fmt::Formatter) -> fmt::Result {
        f.pad_integral(true, "", &format!("{}.{:04}", self.0 / 10_000, self.0 % 10_000))
    }
}

impl fmt::Display for Quantity {
    fn fmt(&self, f: &mut fmt::Formatter) -> fmt::Result {
        self.0.fmt(f)
    }
}

impl fmt::Display for Thousandths {
    fn fmt(&self, f: &mut fmt::Formatter) -> fmt::Result {
        f.pad_integral(true, "", &format!("{}.{:03}", self.0 / 1_000, self.0 % 1_000))
    }
}

impl fmt::Display for Code {
    fn fmt(&self, f: &mut fmt::Formatter) -> fmt::Result {
        let shown = |byte| if matches!(byte, 32..=126) { char::from(byte) } else { char::REPLACEMENT_CHARACTER };
        let text: String = self.0.map(shown).iter().collect();
        f.pad(text.trim_end_matches(' '))
    }
}
