use trivsome::*;

#[test]
fn a_price_has_four_decimals() {
    assert_eq!(Price(1_000_000).to_string(), "100.0000");
    assert_eq!(Price(335_000).to_string(), "33.5000");
    assert_eq!(Price(7).to_string(), "0.0007");
    assert_eq!(Price(0).to_string(), "0.0000");
    assert_eq!(Price(999_999_999).to_string(), "99999.9999");
    assert_eq!(Price(u32::MAX).to_string(), "429496.7295");
}

#[test]
fn a_price_and_a_quantity_stand_in_columns_as_numbers_do() {
    let (price, quantity) = (Price(335_000), Quantity(12_345));
    assert_eq!(format!("{price:9}|{price:<9}|{price:^9}|{price:09}"), "  33.5000|33.5000  | 33.5000 |0033.5000");
    assert_eq!(format!("{quantity}|{quantity:7}|{quantity:<7}"), "12345|  12345|12345  ");
    // no precision cuts a price, which would make it another one
    assert_eq!(format!("{price:.2}"), "33.5000");
}

#[test]
fn a_code_is_its_text_without_the_spaces_behind_it() {
    let code = Code(*b"2330  ");
    assert_eq!(code.to_string(), "2330");
    assert_eq!(format!("{code:6}|{code:>6}|{code:-<6}"), "2330  |  2330|2330--");
    assert_eq!(Code(*b"00631L").to_string(), "00631L");
    assert_eq!(Code(*b" A \\~ ").to_string(), " A \\~");
    assert_eq!(Code(*b"      ").to_string(), "");
}

#[test]
fn a_byte_that_no_code_has_is_not_shown_as_one() {
    assert_eq!(Code::default().to_string(), "\u{FFFD}".repeat(6));
    assert_eq!(Code(*b"A\x1B\x7F\x1F  ").to_string(), "A\u{FFFD}\u{FFFD}\u{FFFD}");
    // two bytes that are one character elsewhere are two here
    assert_eq!(Code([0xC3, 0xA9, b'B', 0xFF, b' ', b'C']).to_string(), "\u{FFFD}\u{FFFD}B\u{FFFD} C");
}
