//! Frames for the tests, put together from hex digits so that a bad digit can be put in.

/// The bytes of a text of hex digits; spaces are free.
pub fn hex(text: &str) -> Vec<u8> {
    let halves: Vec<u8> = text.chars().filter_map(|c| c.to_digit(16)).map(|half| half as u8).collect();
    assert_eq!(halves.len() % 2, 0, "an odd number of hex digits: {text}");
    halves.chunks(2).map(|two| two[0] << 4 | two[1]).collect()
}

/// The common frame around a body. `header` is business, format, version and number.
pub fn frame(header: &str, body: &[u8]) -> Vec<u8> {
    frame_of(&format!("{:04}", body.len() + 13), header, body)
}

/// The same with a length of its own.
pub fn frame_of(length: &str, header: &str, body: &[u8]) -> Vec<u8> {
    let mut inner = hex(length);
    inner.extend(hex(header));
    inner.extend(body);
    let check = inner.iter().fold(0, |sum, byte| sum ^ byte);
    let mut bytes = vec![27];
    bytes.extend(inner);
    bytes.extend([check, 0x0D, 0x0A]);
    bytes
}

/// A body: an ASCII part, then hex digits.
pub fn body(code: &str, rest: &str) -> Vec<u8> {
    let mut bytes = code.as_bytes().to_vec();
    bytes.extend(hex(rest));
    bytes
}

pub const NOTICE: &str = "1B 00 14 01 05 01 00 00 00 01 09 19 0D 0A";
pub const HALT: &str = "1B 00 26 01 19 01 00 00 00 01 31 32 33 34 20 20 10 05 00 99 99 99 49 FF 0D 0A";

pub const FIVE: &str = "01 05 01 00000001";
pub const SIX: &str = "01 06 04 00000001";
pub const TWELVE: &str = "01 12 03 00000001";
pub const NINETEEN: &str = "01 19 01 00000001";

/// Format six's body: code 2330, 09:04:15.061278, a reveal byte and so many pairs of 99.50 and 250.
pub fn quote(reveal: u8, pairs: usize) -> Vec<u8> {
    body("2330  ", &format!("090415061278 {reveal:02X} 00 10 00016423 {}", "0000995000 00000250".repeat(pairs)))
}

/// Format twelve's slots.
pub fn slot(code: &str, time: &str) -> Vec<u8> {
    body(code, &format!("0000125000 0000128000 0000124000 0000125000 00000008 {time}"))
}

pub fn unused() -> Vec<u8> {
    body("      ", &"00".repeat(30))
}

/// Format twelve's body: a count, the slots, and unused ones up to ten.
pub fn table(count: &str, slots: &[Vec<u8>]) -> Vec<u8> {
    let mut bytes = hex(count);
    bytes.extend(slots.concat());
    for _ in slots.len()..10 {
        bytes.extend(unused());
    }
    bytes
}

/// A frame of the derivatives exchange: transmission code and kind, then time, number and version as hex digits.
pub fn index(codes: &str, head: &str, body: &[u8]) -> Vec<u8> {
    index_of(codes, head, &format!("{:04}", body.len()), body)
}

/// The same with a length of its own.
pub fn index_of(codes: &str, head: &str, length: &str, body: &[u8]) -> Vec<u8> {
    let mut inner = codes.as_bytes().to_vec();
    inner.extend(hex(head));
    inner.extend(hex(length));
    inner.extend(body);
    let check = inner.iter().fold(0, |sum, byte| sum ^ byte);
    let mut bytes = vec![27];
    bytes.extend(inner);
    bytes.extend([check, 0x0D, 0x0A]);
    bytes
}

/// I060 of the futures, number 7, sent at 13:30:00.25: TXF at 13:29:59.95 stood at 17,234.567.
pub const I060: &str = "1B 31 35 13 30 00 25 00 00 00 07 02 00 12 54 58 46 13 29 59 95 17 23 45 67 00 BF 0D 0A";

/// I064 of the options, number 99,999,999, sent at 09:00:00.00: 2330 at 08:59:59.99 stood at 598.500, with the bits 2 and 0.
pub const I064: &str =
    "1B 34 38 09 00 00 00 99 99 99 99 01 00 17 32 33 33 30 20 20 20 20 08 59 59 99 00 59 85 00 05 59 0D 0A";

pub const DAY: &str = "091003554189";
pub const NINES: &str = "999999999999";
