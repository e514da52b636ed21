//! The places of bad halves: every half of a frame of each format made bad in turn, and two at once. What has to be told is
//! worked out from the bytes that are listed here.

use std::ops::Range;

use crate::build::*;
use second::read;

/// A frame that is accepted, the bytes of its body that are packed, and those of them with which a price begins.
struct Case {
    name: &'static str,
    frame: Vec<u8>,
    packed: Vec<Range<usize>>,
    prices: Vec<usize>,
}

fn cases() -> Vec<Case> {
    let six = |name, reveal, pairs: Range<usize>, prices: &[usize]| Case {
        name,
        frame: frame(SIX, &quote(reveal, prices.len())),
        packed: vec![16..22, 25..29, pairs],
        prices: prices.to_vec(),
    };
    let twelve = |name, body| Case {
        name,
        frame: frame(TWELVE, body),
        packed: vec![
            10..11,
            17..47,
            53..83,
            89..119,
            125..155,
            161..191,
            197..227,
            233..263,
            269..299,
            305..335,
            341..371,
        ],
        prices: vec![
            17, 22, 27, 32, 53, 58, 63, 68, 89, 94, 99, 104, 125, 130, 135, 140, 161, 166, 171, 176, 197, 202, 207,
            212, 233, 238, 243, 248, 269, 274, 279, 284, 305, 310, 315, 320, 341, 346, 351, 356,
        ],
    };
    vec![
        Case { name: "five", frame: frame(FIVE, &[0x09]), packed: std::iter::once(10..11).collect(), prices: vec![] },
        Case {
            name: "five with text",
            frame: frame(FIVE, b"\x90\xFF\xA1\x1A text"),
            packed: std::iter::once(10..11).collect(),
            prices: vec![],
        },
        six("six without pairs", 0x00, 29..29, &[]),
        six("six, the trade alone", 0x81, 29..38, &[29]),
        six("six with four pairs", 0xA2, 29..65, &[29, 38, 47, 56]),
        six("six with all pairs", 0xDA, 29..128, &[29, 38, 47, 56, 65, 74, 83, 92, 101, 110, 119]),
        twelve("twelve with two slots", &table("02", &[slot("1101  ", DAY), slot("1102  ", NINES)])),
        twelve("twelve with ten slots", &table("10", &vec![slot("1101  ", DAY); 10])),
        Case {
            name: "nineteen",
            frame: frame(NINETEEN, &body("2330  ", "091200 999999 49")),
            packed: std::iter::once(16..22).collect(),
            prices: vec![],
        },
    ]
}

impl Case {
    /// The answer and the place that a bad half has to give; nothing where this one is not bad, or not looked at.
    fn expected(&self, place: usize, half: u8) -> Option<(u8, usize)> {
        let packed = self.packed.iter().any(|bytes| bytes.contains(&(place / 2)));
        match place {
            2..=5 if half > 9 => Some((3, place)),
            6..=19 if half > 9 => Some((6, place)),
            20.. if packed && (half > 9 || self.leads(place) && half > 0) => Some((11, place)),
            _ => None,
        }
    }

    /// Whether a price begins with a half.
    fn leads(&self, place: usize) -> bool {
        self.prices.iter().any(|byte| place == 2 * byte)
    }

    /// The frame with other halves, and a check byte that is right unless it is one of them.
    fn with(&self, halves: &[(usize, u8)]) -> Vec<u8> {
        let mut bytes = self.frame.clone();
        let check = bytes.len() - 3;
        for &(place, half) in halves {
            let byte = &mut bytes[place / 2];
            let changed = if place % 2 == 1 { *byte & 0xF0 | half } else { half << 4 | *byte & 0x0F };
            let difference = *byte ^ changed;
            *byte = changed;
            if (1..check).contains(&(place / 2)) {
                bytes[check] ^= difference;
            }
        }
        bytes
    }

    fn halves(&self) -> Range<usize> {
        0..2 * self.frame.len()
    }
}

/// The answer's number, length and place are those that have to be told.
fn tells(name: &str, bytes: &[u8], expected: Option<(u8, usize)>) {
    let answer = read(bytes);
    match expected {
        Some((number, place)) => {
            let length = (number != 3).then_some(bytes.len());
            assert_eq!(
                (answer.number(), answer.length(), answer.place()),
                (number, length, Some(place)),
                "{name}: {bytes:02X?}"
            );
        }
        None => {
            assert_eq!(answer.place(), None, "{name}: {bytes:02X?}");
            assert!(![6, 11].contains(&answer.number()), "{name}: {bytes:02X?}");
        }
    }
}

#[test]
fn every_half_and_every_value() {
    for case in cases() {
        assert_eq!((read(&case.frame).number(), read(&case.frame).place()), (0, None), "{}", case.name);
        for place in case.halves() {
            for half in 0..=15 {
                tells(case.name, &case.with(&[(place, half)]), case.expected(place, half));
            }
        }
    }
}

#[test]
fn the_lower_of_two() {
    for case in cases() {
        // Without the first and the last bytes, and the reveal byte, which answer before the body's digits.
        let reveals = |place: usize| case.frame[4] == 0x06 && place / 2 == 22;
        let inner = |place: &usize| (2..case.halves().end - 6).contains(place) && !reveals(*place);
        let half = |place: usize| if case.leads(place) { 1 + place as u8 % 15 } else { 10 + place as u8 % 6 };
        for place in case.halves().filter(inner) {
            for other in [1, 2, 3, 5, 9, 10, 18, 19, 36, 71, 72, 73, 144, 333, 500].map(|behind| place + behind) {
                if inner(&other) {
                    let halves = [other, place].map(|place| (place, half(place)));
                    let [further, nearer] = halves.map(|(place, half)| case.expected(place, half));
                    tells(case.name, &case.with(&halves), nearer.or(further));
                }
            }
        }
    }
}

#[test]
fn all_lengths() {
    for length in 0..=0xFFFF_u16 {
        let text = format!("{length:04X}");
        let [high, low] = length.to_be_bytes();
        let answer = read(&[27, high, low]);
        match text.find(|digit: char| digit.is_ascii_uppercase()) {
            Some(at) => {
                assert_eq!((answer.number(), answer.length(), answer.place()), (3, None, Some(2 + at)), "{text}")
            }
            None => {
                let number = if ("0014"..="1024").contains(&text.as_str()) { 2 } else { 3 };
                assert_eq!((answer.number(), answer.length(), answer.place()), (number, None, None), "{text}");
            }
        }
    }
}

#[test]
fn worked_by_hand() {
    let place = |text: &str| read(&hex(text)).place();
    assert_eq!(place("1B A0 14"), Some(2));
    assert_eq!(place("1B 0A 14"), Some(3));
    assert_eq!(place("1B 00 F4"), Some(4));
    assert_eq!(place("1B 00 1F"), Some(5));
    assert_eq!(place("1B 1B 1B"), Some(3));
    assert_eq!(place("1B 0A"), None); // waits
    assert_eq!(place("1B 00 13"), None);
    assert_eq!(place("1B 10 25"), None);
    let of = |header: &str, body: &[u8]| read(&frame(header, body)).place();
    assert_eq!(of("0A 05 01 00000001", &[0x0A]), Some(7));
    assert_eq!(of("99 99 99 0000000F", &[0x09]), Some(19));
    assert_eq!(of(FIVE, &[0xA0]), Some(20));
    assert_eq!(of(FIVE, &[0x0A]), Some(21));
    assert_eq!(of(SIX, &body("\u{1}\u{1}\u{1}\u{1}\u{1}\u{1}", "250000 00000F 00 FF FF 0000000A")), Some(43));
    assert_eq!(of(SIX, &body("2330  ", "090415061278 00 FF FF A0000000")), Some(50));
    assert_eq!(of(SIX, &body("2330  ", "090415061278 81 00 10 00016423 1000995000 00000250")), Some(58));
    assert_eq!(of(SIX, &body("2330  ", "090415061278 81 00 10 00016423 0000995000 0000025F")), Some(75));
    // A slot after the count, and the first slot's time that breaks its rule.
    let mut tenth = table("01", &[slot("1101  ", "250000000000")]);
    tenth[1 + 9 * 36 + 21] = 0x90;
    assert_eq!(of(TWELVE, &tenth), Some(2 * (10 + 1 + 9 * 36 + 21)));
    assert_eq!(of(NINETEEN, &body("FFFFFF", "250000 99999A FF")), Some(43));
}

#[test]
fn no_place_with_the_other_answers() {
    let mut wrong_check = frame(FIVE, &[0x0A]);
    wrong_check[11] ^= 1;
    let mut wrong_end = frame(FIVE, &[0x0A]);
    wrong_end[13] = 0x0D;
    let mut wrong_code = quote(0x00, 0);
    wrong_code[0] = 0xFF;
    for (number, bytes) in [
        (0, hex(NOTICE)),
        (0, frame(FIVE, b"\x09\xFF\xFF")),
        (1, hex("AF FF FF")),
        (2, hex("")),
        (2, hex("1B")),
        (2, hex("1B AA")),
        (2, hex("1B 00 14 AA AA AA")),
        (3, hex("1B 00 00 AA AA AA")),
        (3, hex("1B 99 99 AA AA AA")),
        (4, wrong_end),
        (5, wrong_check),
        (7, frame("99 99 99 00000001", &[0xAA])),
        (8, frame("01 05 02 00000001", &[0xAA])),
        (9, frame(TWELVE, &[0xAA])),
        (9, frame(SIX, &[quote(0x00, 0), hex("AA AA AA AA AA AA AA AA AA")].concat())),
        (10, frame(SIX, &body("2330  ", "AAAAAAAAAAAA A3 00 10 AAAAAAAA"))),
        (12, frame(NINETEEN, &body("\u{1}33333", "250000 999999 FF"))),
        (13, frame(SIX, &wrong_code)),
        (13, frame(NINETEEN, &body("2330  ", "091200 999999 FF"))),
    ] {
        let answer = read(&bytes);
        assert_eq!((answer.number(), answer.place()), (number, None), "{bytes:02X?}");
    }
}
