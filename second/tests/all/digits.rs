//! Packed bytes: both ways to read one, with the edges written by hand.

use second::digits::{number, table, two_digits, MARK};

#[test]
fn edges() {
    let bytes = [0x00, 0x09, 0x0A, 0x0F, 0x10, 0x42, 0x90, 0x99, 0x9A, 0xA0, 0xA9, 0xAA, 0xF0, 0xFF];
    let numbers = [0, 9, 255, 255, 10, 42, 90, 99, 255, 255, 255, 255, 255, 255];
    assert_eq!(bytes.map(|byte| table()[usize::from(byte)]), numbers);
    assert_eq!(bytes.map(two_digits).map(|two| two.unwrap_or(255)), numbers);
}

#[test]
fn a_hundred_bytes_have_two_digits() {
    let table = table();
    let mut numbers: Vec<u8> = table.into_iter().filter(|&number| number < 100).collect();
    numbers.sort();
    assert_eq!(numbers, (0..=99).collect::<Vec<u8>>());
    assert_eq!(table.iter().filter(|&&number| number == MARK).count(), 156);
}

#[test]
fn a_byte_is_a_field_of_its_own() {
    for (byte, entry) in (0..=255).zip(table()) {
        let expected = (entry != MARK).then_some(entry);
        assert_eq!(two_digits(byte), expected, "{byte:02X}");
        assert_eq!(number(&[byte]), expected.map(u64::from), "{byte:02X}");
    }
}
