//! Packed digits: a byte holds two, the high half first; a half above 9 is a bad digit.

use crate::raw;

/// What a table has for a byte with a bad digit.
pub const BAD_DIGIT: u8 = 255;

/// The number of a byte's two digits, 0 to 99, or `None` where one is bad. The call brings the whole table along each time:
/// whoever reads many bytes takes it once, by [`digit_table`].
#[inline]
pub fn two_digits(byte: u8) -> Option<u8> {
    match raw::two_digits(byte) {
        BAD_DIGIT => None,
        number => Some(number),
    }
}

/// The table: at the place of every byte the number of its two digits, or [`BAD_DIGIT`].
#[inline]
pub fn digit_table() -> [u8; 256] {
    let mut table = [0; 256];
    raw::digit_table(&mut table);
    table
}
