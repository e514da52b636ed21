//! The frames that the tests share, a check byte worked out anew, and refusals that tell no place.

use trivsome::{Answer, NotRead};

/// A notice of category 09 without text, number 1.
pub const NOTICE: [u8; 14] = [0x1B, 0x00, 0x14, 0x01, 0x05, 0x01, 0x00, 0x00, 0x00, 0x01, 0x09, 0x19, 0x0D, 0x0A];

/// Stock 1234 halted at 10:05:00, still open, sent at once, number 1.
pub const HALT: [u8; 26] = [
    0x1B, 0x00, 0x26, 0x01, 0x19, 0x01, 0x00, 0x00, 0x00, 0x01, 0x31, 0x32, 0x33, 0x34, 0x20, 0x20, 0x10, 0x05, 0x00,
    0x99, 0x99, 0x99, 0x49, 0xFF, 0x0D, 0x0A,
];

/// A frame of a format, with number 7, around a body.
pub fn around(format: u8, version: u8, body: &[u8]) -> Vec<u8> {
    let length = body.len() + 13;
    let packed = |two: usize| (two / 10 * 16 + two % 10) as u8;
    let mut frame = vec![0x1B, packed(length / 100), packed(length % 100), 1, format, version, 0, 0, 0, 7];
    frame.extend(body);
    let check = frame[1..].iter().fold(0, |sum, byte| sum ^ byte);
    frame.extend([check, 0x0D, 0x0A]);
    frame
}

/// A body of format six for stock 2330 at 09:04:15.061278: pair number k, from 1, has a price of k and a quantity of 10 k.
pub fn quote(reveal: u8, pairs: u8) -> Vec<u8> {
    let mut body = b"2330  ".to_vec();
    body.extend([0x09, 0x04, 0x15, 0x06, 0x12, 0x78, reveal, 0x01, 0x02, 0x00, 0x01, 0x23, 0x45]);
    for k in 1..=pairs {
        let digits = k / 10 * 16 + k % 10;
        // ten times as much: the same digits, moved on by one
        body.extend([0, 0, 0, 0, digits, 0, 0, digits >> 4, digits << 4]);
    }
    around(6, 4, &body)
}

/// Prices of one stock, number 7: the opening price ends in the first of four digits, the highest in the second, and so on.
pub fn prices(lasts: [u8; 4]) -> Vec<u8> {
    let mut body = vec![0x01];
    body.extend(b"2330  ");
    for last in lasts {
        body.extend([0x09, 0, 0, 0, last]);
    }
    body.extend([0x99, 0x99, 0x99, 0x99]);
    body.extend([0x99; 6]);
    for _ in 1..10 {
        body.extend(b"      ");
        body.extend([0; 30]);
    }
    around(0x12, 3, &body)
}

/// The answer 1 to 5 without a place.
pub fn no_frame(number: u8) -> Answer {
    Answer::NoFrame { number, bad_half: None }
}

/// The answer 6 to 13 without a place.
pub fn refused(number: u8, length: usize) -> Answer {
    Answer::Refused { number, length, bad_half: None }
}

/// The same of a reading of one format.
pub fn not_read(number: u8, length: usize) -> NotRead {
    NotRead::Refused { number, length, bad_half: None }
}
