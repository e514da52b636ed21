//! Prices, quantities, index values, and the code of a stock.

use crate::digits;

/// A price in ten-thousandths: nine digits in five packed bytes, so the first half has to be 0.
#[derive(Clone, Copy, Debug, Default, PartialEq, Eq, PartialOrd, Ord)]
pub struct Price(pub u32);

/// A quantity in the stock's own trading units: eight digits in four packed bytes.
#[derive(Clone, Copy, Debug, Default, PartialEq, Eq, PartialOrd, Ord)]
pub struct Quantity(pub u32);

impl Price {
    /// 99,999.9999.
    pub const MAX: Price = Price(999_999_999);
    pub const SIZE: usize = 5;

    /// `None` for a bad digit, the unused first half included.
    pub fn unpack(field: &[u8]) -> Option<Price> {
        let number = digits::number(field)?;
        let price = Price(u32::try_from(number).ok()?);
        (price <= Price::MAX).then_some(price)
    }

    pub fn pack(self, field: &mut [u8]) {
        digits::pack(u64::from(self.0), field);
    }
}

impl Quantity {
    pub const MAX: Quantity = Quantity(99_999_999);
    pub const SIZE: usize = 4;

    /// `None` for a bad digit.
    pub fn unpack(field: &[u8]) -> Option<Quantity> {
        digits::number(field).map(|number| Quantity(number as u32))
    }

    pub fn pack(self, field: &mut [u8]) {
        digits::pack(u64::from(self.0), field);
    }
}

/// An index value of the derivatives exchange, in thousandths: eight digits in four packed bytes.
#[derive(Clone, Copy, Debug, Default, PartialEq, Eq, PartialOrd, Ord)]
pub struct Thousandths(pub u32);

impl Thousandths {
    /// 99,999.999.
    pub const MAX: Thousandths = Thousandths(99_999_999);
    pub const SIZE: usize = 4;

    /// `None` for a bad digit.
    pub fn unpack(field: &[u8]) -> Option<Thousandths> {
        digits::number(field).map(|number| Thousandths(number as u32))
    }

    pub fn pack(self, field: &mut [u8]) {
        digits::pack(u64::from(self.0), field);
    }
}

/// A code as it stands in the frame, with its spaces.
pub type Code = [u8; 6];

/// The code that stands for no stock: the day's last frame, a cycle's end, or the whole market.
pub const CODE_ZERO: Code = *b"000000";

/// Whether all bytes of a code are 32 to 126.
pub fn is_code(code: &Code) -> bool {
    is_printed(code)
}

/// Whether all of some bytes are 32 to 126.
pub fn is_printed(bytes: &[u8]) -> bool {
    bytes.iter().all(|byte| (32..=126).contains(byte))
}

/// The first six bytes of a field as a code.
pub fn code_at(field: &[u8]) -> Code {
    let mut code = Code::default();
    code.copy_from_slice(&field[..6]);
    code
}
