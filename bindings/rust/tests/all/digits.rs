use trivsome::*;

#[test]
fn a_byte_alone() {
    let good = [0x00, 0x09, 0x10, 0x19, 0x42, 0x90, 0x99];
    assert_eq!(good.map(two_digits), [Some(0), Some(9), Some(10), Some(19), Some(42), Some(90), Some(99)]);
    let bad = [0x0A, 0x0F, 0x1A, 0x9A, 0x9F, 0xA0, 0xA9, 0xAA, 0xF0, 0xFF];
    assert_eq!(bad.map(two_digits), [None; 10]);
    assert_eq!((raw::two_digits(0x99), raw::two_digits(0x9A), BAD_DIGIT), (99, 255, 255));
}

#[test]
fn the_table_has_every_byte() {
    let table = digit_table();
    let (digits, behind) = table.split_at(0xA0);
    for (line, tens) in digits.chunks(16).zip([0, 10, 20, 30, 40, 50, 60, 70, 80, 90]) {
        assert_eq!(line[..10], [0, 1, 2, 3, 4, 5, 6, 7, 8, 9].map(|ones| tens + ones));
        assert_eq!(line[10..], [BAD_DIGIT; 6]);
    }
    assert_eq!(behind, [BAD_DIGIT; 96]);
    for (byte, entry) in (0..=255).zip(table) {
        assert_eq!(raw::two_digits(byte), entry, "{byte:02X}");
    }
}

#[test]
fn a_table_is_filled_whatever_it_held() {
    for before in [0x00, 0xA5, 0xFF] {
        let mut table = [before; 256];
        raw::digit_table(&mut table);
        assert_eq!(table, digit_table());
    }
}
