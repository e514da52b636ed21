//! Packed digits: a byte holds two decimal digits, the high half first. A half above 9 is a bad digit.

/// What the table has for a byte with a bad digit.
pub const MARK: u8 = 255;

/// The number of a byte's two digits, 0 to 99, or `None` if one is bad.
pub fn two_digits(byte: u8) -> Option<u8> {
    let (high, low) = (byte >> 4, byte & 0x0F);
    if high > 9 || low > 9 {
        return None;
    }
    Some(high * 10 + low)
}

/// For every byte the number of its two digits, or the mark. It is counted and not worked out: the bytes with two digits, in
/// their order, have the numbers 0 to 99.
pub fn table() -> [u8; 256] {
    let mut table = [MARK; 256];
    let mut number = 0;
    for high in 0..10 {
        for low in 0..10 {
            table[16 * high + low] = number;
            number += 1;
        }
    }
    table
}

/// The number that packed digits say, or `None` if there is a bad digit. A field has at most nine bytes.
pub fn number(field: &[u8]) -> Option<u64> {
    debug_assert!(field.len() <= 9);
    let mut number = 0;
    for &byte in field {
        number = number * 100 + u64::from(two_digits(byte)?);
    }
    Some(number)
}

/// Writes a number as packed digits over the whole field, with zeros before it.
pub fn pack(mut number: u64, field: &mut [u8]) {
    for byte in field.iter_mut().rev() {
        let two = (number % 100) as u8;
        *byte = (two / 10) << 4 | (two % 10);
        number /= 100;
    }
    debug_assert_eq!(number, 0, "the number has more digits than the field");
}
