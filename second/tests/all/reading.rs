//! The reading's rows 6 to 13, and their order.

use crate::build::*;
use second::twelve::Slot;
use second::{read, Message};

fn answer(header: &str, body: &[u8]) -> u8 {
    let bytes = frame(header, body);
    let answer = read(&bytes);
    match answer.number() {
        0 | 6..=13 => assert_eq!(answer.length(), Some(bytes.len())),
        _ => assert_eq!(answer.length(), None),
    }
    answer.number()
}

#[test]
fn header() {
    for header in [
        "0A050100000001",
        "F1050100000001",
        "010A0100000001",
        "01F50100000001",
        "01050A00000001",
        "0105F100000001",
        "010501A0000001",
        "0105010A000001",
        "0105010000000A",
        "010501000000F1",
    ] {
        assert_eq!(answer(header, &[0x09]), 6, "{header}");
    }
    for header in
        ["00050100000001", "02050100000001", "01000100000001", "01010100000001", "01170100000001", "01990100000001"]
    {
        assert_eq!(answer(header, &[0x09]), 7, "{header}");
    }
    for header in ["01050000000001", "01050200000001", "01060300000001", "01120100000001", "01190300000001"] {
        assert_eq!(answer(header, &[0x09]), 8, "{header}");
    }
    for header in [SIX, TWELVE, NINETEEN] {
        assert_eq!(answer(header, &[0x09]), 9, "{header}");
    }
    assert_eq!(answer("01050100000000", &[0x09]), 0);
    assert_eq!(answer("01050199999999", &[0x09]), 0);
}

#[test]
fn a_changed_byte_is_no_frame() {
    // The outline is looked at first: a bad digit without a right check byte answers 5, without a right end 4.
    let mut bytes = hex(NOTICE);
    bytes[9] = 0x0A;
    assert_eq!(read(&bytes).number(), 5);
    bytes[13] = 0x0D;
    assert_eq!(read(&bytes).number(), 4);
    bytes.pop();
    assert_eq!(read(&bytes).number(), 2);
    bytes[2] = 0x1A;
    assert_eq!(read(&bytes).number(), 3);
    bytes[0] = 0x1A;
    assert_eq!(read(&bytes).number(), 1);
    // Byte 1 has no part in the check byte.
    let mut bytes = hex(NOTICE);
    bytes[11] ^= 27;
    assert_eq!(read(&bytes).number(), 5);
}

#[test]
fn five() {
    for (category, expected) in [
        (0x00, 0),
        (0x09, 0),
        (0x90, 0),
        (0x99, 0),
        (0x01, 13),
        (0x10, 13),
        (0x98, 13),
        (0x0A, 11),
        (0xA0, 11),
        (0x1B, 11),
    ] {
        assert_eq!(answer(FIVE, &[category]), expected, "{category:02X}");
    }
    let mut longest = vec![0x00];
    longest.extend((0..60).map(|byte| byte * 4 + 19));
    assert_eq!(answer(FIVE, &longest), 0);
    let read_back = read(&frame(FIVE, &longest));
    let Some(Message::Five(notice)) = read_back.message() else { panic!("no notice") };
    assert_eq!(notice.text(), &longest[1..]);
    longest.push(0);
    assert_eq!(answer(FIVE, &longest), 9);
    let read_back = read(&frame(FIVE, b"\x09text"));
    let Some(Message::Five(notice)) = read_back.message() else { panic!("no notice") };
    assert_eq!((notice.text(), notice.text[4..].iter().all(|&byte| byte == 0)), (&b"text"[..], true));
}

#[test]
fn six_levels_and_length() {
    for reveal in 0..=255u8 {
        let counts = [reveal >> 4 & 7, reveal >> 1 & 7];
        let pairs = usize::from(reveal >> 7) + usize::from(counts[0]) + usize::from(counts[1]);
        for listed in 0..=11 {
            // No side has more than five levels, and none has any where only the trade is sent.
            let most = if reveal % 2 == 1 { 0 } else { 5 };
            let expected = match (counts.iter().any(|&count| count > most), listed == pairs) {
                (true, _) => 10,
                (false, false) => 9,
                (false, true) => 0,
            };
            assert_eq!(answer(SIX, &quote(reveal, listed)), expected, "{reveal:02X} with {listed} pairs");
        }
    }
    assert_eq!(answer(SIX, &quote(0x00, 0)[..18]), 9);
    assert_eq!(answer(SIX, &[quote(0xDA, 11), vec![0]].concat()), 9);
    assert_eq!(answer(SIX, &[quote(0x60, 11), vec![0]].concat()), 9);
}

#[test]
fn six_the_trade_alone_and_levels() {
    // A side alone, both, and six levels as well; with the trade's pair and without.
    for reveal in [0x11, 0x03, 0x13, 0x51, 0x0B, 0x5B, 0x91, 0x83, 0xA3, 0xD1, 0x8B, 0xDB, 0x61, 0x0D, 0xE3, 0x8F, 0xFF]
    {
        // Any length from 32 to 131, that of its pairs, of the trade alone, and ones that no pairs have.
        for listed in 0..=11 {
            assert_eq!(answer(SIX, &quote(reveal, listed)), 10, "{reveal:02X} with {listed} pairs");
        }
        assert_eq!(answer(SIX, &[quote(reveal, 0), vec![0]].concat()), 10, "{reveal:02X}");
        assert_eq!(answer(SIX, &quote(reveal, 11)[..117]), 10, "{reveal:02X}");
        // 31 and 132 are no lengths of the format at all.
        assert_eq!(answer(SIX, &quote(reveal, 0)[..18]), 9, "{reveal:02X}");
        assert_eq!(answer(SIX, &[quote(reveal, 11), vec![0]].concat()), 9, "{reveal:02X}");
    }
    // Before bad digits, a bad time and a bad code, one by one and all at once.
    let pairs = "0000995000 00000250".repeat(4);
    let rest = format!("A3 00 10 00016423 {pairs}");
    assert_eq!(answer(SIX, &body("2330  ", &format!("A90415061278 {rest}"))), 10);
    assert_eq!(answer(SIX, &body("2330  ", &format!("250415061278 {rest}"))), 10);
    assert_eq!(answer(SIX, &body("2330  ", &format!("{NINES} {rest}"))), 10);
    assert_eq!(answer(SIX, &body("000000", &format!("090415061278 {rest}"))), 10);
    assert_eq!(answer(SIX, &body("2330 \x1f", &format!("090415061278 {rest}"))), 10);
    assert_eq!(answer(SIX, &body("2330  ", &format!("090415061278 A3 00 10 0001642A {pairs}"))), 10);
    assert_eq!(answer(SIX, &body("\0\0\0\0\0\0", &format!("FFFFFFFFFFFF A3 00 10 FFFFFFFF {}", "FF".repeat(7)))), 10);
    // The day's last frame has no other rule.
    assert_eq!(answer(SIX, &body("000000", &format!("{NINES} {rest}"))), 10);
    // Behind the version, the format and the digits of the header.
    let levels = quote(0xA3, 4);
    assert_eq!(answer("01 06 03 00000001", &levels), 8);
    assert_eq!(answer("01 07 04 00000001", &levels), 7);
    assert_eq!(answer("01 06 04 0000000A", &levels), 6);
}

#[test]
fn six_the_trade_alone() {
    // The length that its pairs give, and no other.
    for (reveal, pairs) in [(0x01, 0), (0x81, 1)] {
        for listed in 0..=11 {
            let expected = if listed == pairs { 0 } else { 9 };
            assert_eq!(answer(SIX, &quote(reveal, listed)), expected, "{reveal:02X} with {listed} pairs");
        }
        assert_eq!(answer(SIX, &[quote(reveal, pairs), vec![0]].concat()), 9);
    }
    // Its fields are looked at as ever.
    let day = |code: &str, time: &str, rest: &str| answer(SIX, &body(code, &format!("{time} {rest}")));
    let rest = "81 00 10 00016423 0000995000 00000250";
    assert_eq!(day("2330  ", "090415061278", rest), 0);
    assert_eq!(day("2330  ", "09041506127A", rest), 11);
    assert_eq!(day("2330  ", "090415061278", "81 00 10 00016423 1000995000 00000250"), 11);
    assert_eq!(day("2330  ", "090415061278", "01 00 10 0001642B"), 11);
    assert_eq!(day("2330  ", "240000000000", rest), 12);
    assert_eq!(day("2330  ", NINES, "01 00 10 00016423"), 12);
    assert_eq!(day("2330 \x7f", "090415061278", rest), 13);
    assert_eq!(day("000000", NINES, rest), 0);
    assert_eq!(day("000000", NINES, "01 00 10 00000000"), 0);
}

#[test]
fn six_fields() {
    let day = |code: &str, time: &str, rest: &str| answer(SIX, &body(code, &format!("{time} {rest}")));
    let rest = "80 00 00 00001558 0000335000 00000000";
    assert_eq!(day("1301  ", "094519033017", rest), 0);
    for rest in [
        "80 00 00 A0001558 0000335000 00000000",
        "80 00 00 00001558 1000335000 00000000",
        "80 00 00 00001558 A000335000 00000000",
        "80 00 00 00001558 000033500A 00000000",
        "80 00 00 00001558 0000335000 0000000F",
    ] {
        assert_eq!(day("1301  ", "094519033017", rest), 11, "{rest}");
        assert_eq!(day("\x00     ", "250000000000", rest), 11, "{rest}");
    }
    assert_eq!(day("1301  ", "09451903301A", rest), 11);
    for time in ["240000000000", "006000000000", "000060000000", "999999999998", "999999000000", NINES] {
        assert_eq!(day("1301  ", time, rest), 12, "{time}");
        assert_eq!(day("\x7f     ", time, rest), 12, "{time}");
    }
    assert_eq!(day("000000", NINES, rest), 0);
    assert_eq!(day("000000", "094519033017", rest), 12);
    assert_eq!(day("000000", "000000000000", rest), 12);
    assert_eq!(day("1301  ", "000000000000", rest), 0);
    assert_eq!(day("1301  ", "235959999999", rest), 0);
    for code in ["\x1f     ", "     \x7f", "13\x1b1  ", "1301 \x00"] {
        assert_eq!(day(code, "094519033017", rest), 13, "{code:?}");
    }
    assert_eq!(day(" ~  ~ ", "094519033017", rest), 0);
    // Limit, status and the reveal byte are handed on.
    let bytes = frame(SIX, &body("1301  ", "094519033017 81 FE FD 99999999 0999999999 99999999"));
    let answer = read(&bytes);
    let Some(Message::Six(quote)) = answer.message() else { panic!("no quote") };
    assert_eq!((quote.reveal, quote.limit, quote.status), (0x81, 0xFE, 0xFD));
    assert_eq!(
        (quote.total.0, quote.pairs[0].price.0, quote.pairs[0].quantity.0),
        (99_999_999, 999_999_999, 99_999_999)
    );
    assert_eq!((quote.bids(), quote.asks()), (None, None));
    assert!(quote.pairs[1..].iter().all(|pair| *pair == Default::default()));
}

#[test]
fn twelve_times_and_counts() {
    let closed = vec![slot("1101  ", NINES); 10];
    let open = vec![slot("1101  ", DAY); 10];
    assert_eq!(answer(TWELVE, &table("10", &closed)), 0);
    assert_eq!(answer(TWELVE, &table("10", &open)), 0);
    assert_eq!(answer(TWELVE, &table("01", &closed[..1])), 0);
    // Nines only in a counted slot; under a count above 10 all ten are, under 00 none.
    assert_eq!(answer(TWELVE, &table("01", &closed[..2])), 12);
    assert_eq!(answer(TWELVE, &table("09", &closed)), 12);
    assert_eq!(answer(TWELVE, &table("00", &closed[..1])), 12);
    assert_eq!(answer(TWELVE, &table("00", &open[..1])), 13);
    assert_eq!(answer(TWELVE, &table("00", &[])), 13);
    assert_eq!(answer(TWELVE, &table("11", &closed)), 13);
    assert_eq!(answer(TWELVE, &table("99", &open)), 13);
    assert_eq!(answer(TWELVE, &table("0A", &closed[..2])), 11);
    assert_eq!(answer(TWELVE, &table("02", &[slot("1101  ", DAY), slot("1102  ", "240000000000")])), 12);
    assert_eq!(answer(TWELVE, &table("01", &[slot("1101  ", "999999999998")])), 12);
    // A filled slot after the count; a slot 000000 with anything in it; a counted slot of spaces and zeros.
    assert_eq!(answer(TWELVE, &table("01", &open[..2])), 13);
    assert_eq!(answer(TWELVE, &table("02", &[slot("000000", NINES), slot("1101  ", DAY)])), 0);
    assert_eq!(answer(TWELVE, &table("02", &open[..1])), 0);
    assert_eq!(answer(TWELVE, &table("01", &[slot("1101 \x1f", DAY)])), 13);
}

#[test]
fn twelve_every_byte_of_an_unused_slot() {
    let right = table("01", &[slot("1101  ", DAY)]);
    for place in [1, 9] {
        for offset in 0..36 {
            let mut wrong = right.clone();
            wrong[1 + 36 * place + offset] = 0x0A;
            assert_eq!(answer(TWELVE, &wrong), if offset < 6 { 13 } else { 11 }, "slot {place}, byte {offset}");
            wrong[1 + 36 * place + offset] = 0x01;
            assert_eq!(answer(TWELVE, &wrong), 13, "slot {place}, byte {offset}");
            wrong[1 + 36 * place + offset] = 0x90;
            let expected = match offset {
                6 | 11 | 16 | 21 => 11, // a price's first half
                30..=32 => 12,
                _ => 13,
            };
            assert_eq!(answer(TWELVE, &wrong), expected, "slot {place}, byte {offset}");
        }
    }
    let answer = read(&frame(TWELVE, &right));
    let Some(Message::Twelve(prices)) = answer.message() else { panic!("no prices") };
    assert!(prices.slots[1..].iter().all(|slot| *slot == Slot::UNUSED));
}

#[test]
fn nineteen() {
    let halt = |code: &str, times: &str, state: u8| answer(NINETEEN, &[body(code, times), vec![state]].concat());
    assert_eq!(halt("2330  ", "091200 999999", b'I'), 0);
    assert_eq!(halt("2330  ", "091200 115700", b'C'), 0);
    assert_eq!(halt("2330  ", "235959 000000", b'C'), 0);
    for times in [
        "240000 999999",
        "006000 999999",
        "000060 999999",
        "999999 115700",
        "999999 999998",
        "999998 999999",
        "091200 240000",
        "091200 006000",
        "091200 000060",
        "091200 999998",
    ] {
        assert_eq!(halt("2330  ", times, b'I'), 12, "{times}");
        assert_eq!(halt("\x00     ", times, b'X'), 12, "{times}");
    }
    for times in ["A91200 999999", "09120A 999999", "091200 F99999", "999999 99999A", "240000 00000A"] {
        assert_eq!(halt("\x00     ", times, b'X'), 11, "{times}");
    }
    for state in [0, b'c', b'X', b'i', 27, 255] {
        assert_eq!(halt("2330  ", "091200 999999", state), 13);
        assert_eq!(halt("000002", "999999 999999", state), 13);
    }
    for code in ["\x1f330  ", "2330 \x7f"] {
        assert_eq!(halt(code, "091200 999999", b'I'), 13);
    }
    for code in ["2     ", " 00002", "00000A", "00000/", "00000:", "-00002", "+00002"] {
        assert_eq!(halt(code, "999999 999999", b'I'), 13, "{code}");
    }
}
