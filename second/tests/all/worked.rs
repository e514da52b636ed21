//! The specification's worked examples: five of format six, both tables of format nineteen, records of format twelve.

use crate::build::*;
use second::nineteen::{Event, Resume, State};
use second::six::{Pair, Quote};
use second::twelve::Prices;
use second::units::{Price, Quantity};
use second::{read, write, Message};

/// The bytes of an example from 2 to the end of the body, as the specification prints them.
const EXAMPLE_1: &str = "
    01 13 01 06 04 00 00 45 67 32 33 33 30 20 20 09 04 15 06 12 78 D6 00 00 00 01 64 23
    00 00 99 50 00 00 00 12 34
    00 00 99 50 00 00 00 02 50 00 00 99 00 00 00 00 01 75 00 00 98 50 00 00 00 04 77
    00 00 97 50 00 00 00 06 69 00 00 97 00 00 00 00 01 25
    00 01 00 00 00 00 00 00 80 00 01 00 50 00 00 00 06 75 00 01 01 50 00 00 00 04 60";
const EXAMPLE_2: &str = "
    00 86 01 06 04 00 06 43 23 32 30 30 32 20 20 10 27 33 16 50 41 D0 A0 00 00 01 19 21
    00 00 13 85 00 00 00 19 21
    00 00 13 85 00 00 00 05 40 00 00 13 80 00 00 00 02 30 00 00 13 75 00 00 00 00 72
    00 00 13 70 00 00 00 00 69 00 00 13 65 00 00 00 00 81";
const EXAMPLE_3: &str = "
    00 86 01 06 04 00 04 12 34 31 35 30 34 20 20 09 50 23 27 15 34 8A 44 00 00 00 06 50
    00 00 11 50 00 00 00 00 17
    00 00 11 50 00 00 00 00 70 00 00 11 55 00 00 00 00 35 00 00 11 60 00 00 00 00 46
    00 00 11 65 00 00 00 00 28 00 00 11 70 00 00 00 00 19";
const EXAMPLE_4: &str = "
    00 41 01 06 04 00 00 83 25 31 33 30 31 20 20 09 45 19 03 30 17 80 81 00 00 00 15 58
    00 00 33 50 00 00 00 00 00";
const EXAMPLE_5: &str = "
    00 86 01 06 04 00 00 45 67 32 33 33 30 20 20 09 04 15 06 12 78 D0 00 00 00 01 64 23
    00 00 99 50 00 00 00 12 34
    00 00 00 00 00 00 00 02 50 00 00 99 00 00 00 00 01 75 00 00 98 50 00 00 00 04 77
    00 00 97 50 00 00 00 06 69 00 00 97 00 00 00 00 01 25";

fn closed(inner: &str, check: u8) -> Vec<u8> {
    [vec![27], hex(inner), vec![check, 0x0D, 0x0A]].concat()
}

/// Pairs of a price in hundredths and a quantity.
fn pairs(listed: &[(u32, u32)]) -> Vec<Pair> {
    listed.iter().map(|&(price, quantity)| Pair { price: Price(price * 100), quantity: Quantity(quantity) }).collect()
}

/// The example as printed answers 5, with the rule's check byte it is accepted; writing it gives its bytes again.
fn quoted(inner: &str, printed: u8, right: u8) -> Quote {
    assert_eq!(read(&closed(inner, printed)).number(), 5);
    let bytes = closed(inner, right);
    let answer = read(&bytes);
    assert_eq!((answer.number(), answer.length()), (0, Some(bytes.len())));
    let mut written = vec![0; bytes.len()];
    assert_eq!(write(answer.message().unwrap(), &mut written), Ok(bytes.len()));
    assert_eq!(written, bytes);
    match answer.message() {
        Some(Message::Six(quote)) => *quote,
        other => panic!("no quote: {other:?}"),
    }
}

fn head(quote: &Quote) -> (u32, &[u8; 6], u64, u8, u8, u8, u32) {
    (quote.number, &quote.code, quote.time, quote.reveal, quote.limit, quote.status, quote.total.0)
}

#[test]
fn six_1() {
    let quote = quoted(EXAMPLE_1, 0xFC, 0x7B);
    assert_eq!(head(&quote), (4567, b"2330  ", 90_415_061_278, 0xD6, 0x00, 0x00, 16423));
    assert_eq!(quote.trade(), Some(pairs(&[(9950, 1234)])[0]));
    assert_eq!(quote.bids().unwrap(), pairs(&[(9950, 250), (9900, 175), (9850, 477), (9750, 669), (9700, 125)]));
    assert_eq!(quote.asks().unwrap(), pairs(&[(10000, 80), (10050, 675), (10150, 460)]));
    assert!(!quote.ends_the_day());
}

#[test]
fn six_2() {
    let quote = quoted(EXAMPLE_2, 0x69, 0x9C);
    assert_eq!(head(&quote), (64323, b"2002  ", 102_733_165_041, 0xD0, 0xA0, 0x00, 11921));
    assert_eq!(quote.trade(), Some(pairs(&[(1385, 1921)])[0]));
    assert_eq!(quote.bids().unwrap(), pairs(&[(1385, 540), (1380, 230), (1375, 72), (1370, 69), (1365, 81)]));
    assert_eq!(quote.asks().unwrap(), []);
}

#[test]
fn six_3() {
    let quote = quoted(EXAMPLE_3, 0xA5, 0x46);
    assert_eq!(head(&quote), (41234, b"1504  ", 95_023_271_534, 0x8A, 0x44, 0x00, 650));
    assert_eq!(quote.trade(), Some(pairs(&[(1150, 17)])[0]));
    assert_eq!(quote.bids().unwrap(), []);
    assert_eq!(quote.asks().unwrap(), pairs(&[(1150, 70), (1155, 35), (1160, 46), (1165, 28), (1170, 19)]));
}

#[test]
fn six_4() {
    let quote = quoted(EXAMPLE_4, 0xC1, 0xB9);
    assert_eq!(head(&quote), (8325, b"1301  ", 94_519_033_017, 0x80, 0x81, 0x00, 1558));
    assert_eq!(quote.trade(), Some(pairs(&[(3350, 0)])[0]));
    assert_eq!((quote.bids(), quote.asks()), (Some(&[][..]), Some(&[][..])));
}

#[test]
fn six_5() {
    // The reveal byte is D0 by its bits and by the length; D6 is printed beside them.
    let quote = quoted(EXAMPLE_5, 0xA2, 0xB7);
    assert_eq!(head(&quote), (4567, b"2330  ", 90_415_061_278, 0xD0, 0x00, 0x00, 16423));
    assert_eq!(quote.trade(), Some(pairs(&[(9950, 1234)])[0]));
    assert_eq!(quote.bids().unwrap(), pairs(&[(0, 250), (9900, 175), (9850, 477), (9750, 669), (9700, 125)]));
    assert_eq!(quote.asks().unwrap(), []);
    let printed = EXAMPLE_5.replace("78 D0", "78 D6");
    assert_eq!(read(&closed(&printed, 0xA2)).number(), 5);
    let answer = read(&closed(&printed, 0xB7 ^ 0xD0 ^ 0xD6));
    assert_eq!((answer.number(), answer.length()), (9, Some(86)));
}

/// No example of the specification sends the trade alone. This is its example 4, with bit 0 of the reveal byte set as its page
/// says it is for a trade that is not an order's last; the check byte goes with it.
const EXAMPLE_4_ALONE: &str = "
    00 41 01 06 04 00 00 83 25 31 33 30 31 20 20 09 45 19 03 30 17 81 81 00 00 00 15 58
    00 00 33 50 00 00 00 00 00";

#[test]
fn six_4_alone() {
    let quote = quoted(EXAMPLE_4_ALONE, 0xC1, 0xB9 ^ 0x80 ^ 0x81);
    assert_eq!(head(&quote), (8325, b"1301  ", 94_519_033_017, 0x81, 0x81, 0x00, 1558));
    assert_eq!(quote.trade(), Some(pairs(&[(3350, 0)])[0]));
    assert_eq!((quote.bids(), quote.asks()), (None, None));
    // The other examples show levels, so with bit 0 set they are refused, of whatever length.
    for (example, right, reveal) in
        [(EXAMPLE_1, 0x7B, "D6"), (EXAMPLE_2, 0x9C, "D0"), (EXAMPLE_3, 0x46, "8A"), (EXAMPLE_5, 0xB7, "D0")]
    {
        let (before, behind) = example.split_once(&format!(" {reveal} ")).unwrap();
        let alone = u8::from_str_radix(reveal, 16).unwrap() | 1;
        let bytes = closed(&format!("{before} {alone:02X} {behind}"), right ^ 1);
        let answer = read(&bytes);
        assert_eq!((answer.number(), answer.length()), (10, Some(bytes.len())));
    }
}

/// Both tables of format nineteen: number, code, halted, resumed, state. Rows that come again are left out.
const HALTS: [(u32, &str, &str, &str, char); 26] = [
    (1, "2330", "091200", "999999", 'I'),
    (2, "2417", "091200", "999999", 'I'),
    (3, "000002", "999999", "999999", 'I'),
    (1, "2330", "091200", "999999", 'C'),
    (2, "2417", "091200", "999999", 'C'),
    (3, "000002", "999999", "999999", 'C'),
    (1, "2330", "091200", "115700", 'I'),
    (2, "000001", "999999", "999999", 'I'),
    (1, "2330", "091200", "115700", 'C'),
    (2, "2417", "091200", "999999", 'C'),
    (3, "000002", "999999", "999999", 'C'),
    (1, "2330", "080000", "080000", 'I'),
    (2, "2331", "080000", "081200", 'I'),
    (3, "2417", "080000", "999999", 'I'),
    (4, "2882", "080000", "999999", 'I'),
    (5, "000004", "999999", "999999", 'I'),
    (1, "2330", "080000", "080000", 'C'),
    (2, "2331", "080000", "081200", 'C'),
    (3, "2417", "080000", "999999", 'C'),
    (4, "2882", "080000", "999999", 'C'),
    (5, "000004", "999999", "999999", 'C'),
    (1, "2417", "080000", "094300", 'I'),
    (2, "000001", "999999", "999999", 'I'),
    (3, "2417", "080000", "094300", 'C'),
    // Not in the tables: the whole market, and a round without records.
    (1, "000000", "100000", "999999", 'I'),
    (1, "000000", "999999", "999999", 'C'),
];

#[test]
fn nineteen() {
    for (number, code, halted, resumed, state) in HALTS {
        let text = [body(&format!("{code:6}"), &format!("{halted}{resumed}")), vec![state as u8]].concat();
        let bytes = frame(&format!("011901{number:08}"), &text);
        let answer = read(&bytes);
        let Some(message @ Message::Nineteen(halt)) = answer.message() else { panic!("{answer:?}") };
        assert_eq!((halt.number, &halt.code[..]), (number, format!("{code:6}").as_bytes()));
        assert_eq!(halt.state, if state == 'C' { State::Cycle } else { State::AtOnce });
        let time = |digits: &str| digits.parse().unwrap();
        let event = match (halted, resumed) {
            ("999999", "999999") => Event::RoundEnd { records: code.parse().unwrap() },
            (_, "999999") => Event::Halted { at: time(halted), resume: Resume::Open },
            _ => Event::Halted { at: time(halted), resume: Resume::At(time(resumed)) },
        };
        assert_eq!(halt.event, event);
        assert_eq!(halt.is_whole_market(), code == "000000" && halted != "999999");
        let mut written = [0; 26];
        assert_eq!(write(message, &mut written), Ok(26));
        assert_eq!(written[..], bytes);
    }
}

const CYCLE_END: &str = "0000000000 0000000000 0000000000 0000000000 00000000 000000000000";

fn priced(number: u32, slots: &[Vec<u8>]) -> Prices {
    let bytes = frame(&format!("011203{number:08}"), &table(&format!("{:02}", slots.len()), slots));
    assert_eq!(bytes.len(), 374);
    let answer = read(&bytes);
    let Some(message @ Message::Twelve(prices)) = answer.message() else { panic!("{answer:?}") };
    let mut written = [0; 374];
    assert_eq!(write(message, &mut written), Ok(374));
    assert_eq!(written[..], bytes);
    assert_eq!((prices.number, prices.count), (number, slots.len()));
    *prices
}

#[test]
fn twelve_in_the_day() {
    // Record 93 of the day's table, which ends a cycle.
    let stock = body("9945  ", "0000045000 0000048000 0000044000 0000045000 00000042 091010117873");
    let prices = priced(93, &[stock, body("000000", CYCLE_END)]);
    let slot = &prices.slots[0];
    assert_eq!(&slot.code, b"9945  ");
    assert_eq!([slot.opening, slot.highest, slot.lowest, slot.last].map(|price| price.0), [45000, 48000, 44000, 45000]);
    assert_eq!((slot.total.0, slot.time, slot.is_closing()), (42, 91_010_117_873, false));
    assert_eq!((&prices.slots[1].code, prices.slots[1].time), (b"000000", 0));
}

#[test]
fn twelve_after_the_close() {
    // Record 1, whose table leaves slots 03 to 08 out, and record 93.
    let ten: Vec<_> = (1101..=1110)
        .map(|code| {
            body(&format!("{code}  "), &format!("0000125000 0000128000 0000124000 0000125000 00002208 {NINES}"))
        })
        .collect();
    let prices = priced(1, &ten);
    assert!(prices.counted().iter().all(|slot| slot.is_closing() && slot.last == Price(125_000)));
    let stock = body("9902  ", &format!("0000045000 0000047000 0000044000 0000047000 00002342 {NINES}"));
    let prices = priced(93, &[stock, body("000000", CYCLE_END)]);
    assert!(prices.slots[0].is_closing() && prices.slots[0].last == Price(47000));
    assert!(!prices.slots[1].is_closing());
}
