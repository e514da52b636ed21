//! The derivatives exchange: frames worked out by hand, each refusal with its number, length and place, round trips, the walk,
//! and what the programs print.

use std::io::Write;
use std::ops::Range;
use std::process::{Command, Stdio};

use crate::build::*;
use crate::listing::Pieces;
use second::derivatives::{read, read_at, write, Derivatives2015, Kind, Message};
use second::listing::list_of;
use second::units::Thousandths;
use second::walk::{self, walk_of, Line, Tally, TooMuch};
use second::{messages, refusals, Answer, NoFrame, Refusal};

fn i060() -> Message {
    Message {
        market: b'1',
        kind: Kind::I060,
        sent: 13_300_025,
        seq: 7,
        contract_length: 3,
        contract: *b"TXF\0\0\0\0\0",
        time: 13_295_995,
        value: Thousandths(17_234_567),
        status: 0,
    }
}

fn i064() -> Message {
    Message {
        market: b'4',
        kind: Kind::I064,
        sent: 9_000_000,
        seq: 99_999_999,
        contract_length: 8,
        contract: *b"2330    ",
        time: 8_595_999,
        value: Thousandths(598_500),
        status: 5,
    }
}

/// Header time, number and version of the two kinds, and their bodies.
const OF_60: &str = "13300025 00000007 02";
const OF_64: &str = "09000000 99999999 01";

fn short(contract: &str, rest: &str) -> Vec<u8> {
    assert_eq!(contract.len(), 3);
    body(contract, rest)
}

fn long(contract: &str, rest: &str) -> Vec<u8> {
    assert_eq!(contract.len(), 8);
    body(contract, rest)
}

fn txf() -> Vec<u8> {
    short("TXF", "13295995 17234567 00")
}

fn tsmc() -> Vec<u8> {
    long("2330    ", "08595999 00598500 05")
}

/// Number, length and place.
fn told(bytes: &[u8]) -> (u8, Option<usize>, Option<usize>) {
    let answer = read(bytes);
    (answer.number(), answer.length(), answer.place())
}

#[test]
fn worked_frames() {
    assert_eq!(read(&hex(I060)), Answer::Accepted { length: 29, message: i060() });
    assert_eq!(read(&hex(I064)), Answer::Accepted { length: 34, message: i064() });
    assert_eq!((i060().format(), i060().number(), i060().contract()), (60, 7, &b"TXF"[..]));
    assert_eq!((i064().format(), i064().number(), i064().contract()), (64, 99_999_999, &b"2330    "[..]));
    // What is put together here is the same.
    assert_eq!(index("15", OF_60, &txf()), hex(I060));
    assert_eq!(index("48", OF_64, &tsmc()), hex(I064));
    // Each kind in each form and for each market.
    for (codes, head, body, length) in [
        ("15", OF_60, txf(), 29),
        ("45", OF_60, txf(), 29),
        ("15", OF_60, long("TXF     ", "13295995 17234567 01"), 34),
        ("45", OF_60, long("        ", "00000000 00000000 01"), 34),
        ("18", OF_64, short("~ \"", "23595999 99999999 07"), 29),
        ("48", OF_64, short("000", "00000099 00000001 04"), 29),
        ("18", OF_64, tsmc(), 34),
        ("48", "00000000 00000000 01", tsmc(), 34),
        ("48", "23595999 00000000 01", tsmc(), 34),
    ] {
        assert_eq!(told(&index(codes, head, &body)), (0, Some(length), None), "{codes}");
    }
    // Bytes behind a frame are not looked at, and those before a place neither.
    let line = [hex("1B 31"), hex(I060), hex("1B FF")].concat();
    assert_eq!(read_at(&line, 2), Answer::Accepted { length: 29, message: i060() });
    assert_eq!([3, 31, 32, 33, usize::MAX].map(|place| read_at(&line, place).number()), [1, 2, 1, 2, 2]);
}

#[test]
fn each_refusal() {
    let changed = |place: usize, byte: u8| {
        let mut bytes = hex(I060);
        bytes[place] = byte;
        bytes
    };
    let refused = |number: u8, place: Option<usize>| (number, Some(29), place);
    for (bytes, expected) in [
        (vec![], (2, None, None)),
        (hex("41"), (1, None, None)),
        (hex("1A 31 35"), (1, None, None)),
        (changed(0, 0x1C), (1, None, None)),
        (hex("1B"), (2, None, None)),
        (hex("1B FF FF FF FF FF FF FF FF FF FF FF FF"), (2, None, None)), // 13 bytes
        (hex("1B 31 35 13 30 00 25 00 00 00 07 02 00 1A"), (3, None, Some(27))),
        (hex("1B 31 35 13 30 00 25 00 00 00 07 02 10 08"), (3, None, None)), // 1,025 in all
        (hex("1B 31 35 13 30 00 25 00 00 00 07 02 10 07"), (2, None, None)), // 1,024
        (hex("1B FF FF FF FF FF FF FF FF FF FF FF 00 00"), (2, None, None)), // 17
        (hex(I060)[..28].to_vec(), (2, None, None)),
        (changed(28, 0x0D), (4, None, None)),
        (changed(27, 0x0A), (4, None, None)),
        (changed(26, 0xBE), (5, None, None)),
        (changed(26, 0xA4), (5, None, None)), // with byte 1 in it
        (index("15", "1330002A 00000007 02", &txf()), refused(6, Some(13))),
        (index("15", "13300025 F0000007 02", &txf()), refused(6, Some(14))),
        (index("15", "13300025 00000007 0A", &txf()), refused(6, Some(23))),
        (index("25", OF_60, &txf()), refused(7, None)),
        (index("16", OF_60, &txf()), refused(7, None)),
        (index("15", "13300025 00000007 01", &txf()), refused(8, None)),
        (index("15", "13300025 00000007 20", &txf()), refused(8, None)),
        (index("18", "13300025 00000007 02", &txf()), refused(8, None)),
        (index("15", OF_60, &[]), (9, Some(17), None)),
        (index("15", OF_60, &txf()[..11]), (9, Some(28), None)),
        (index("15", OF_60, &[b' '; 13]), (9, Some(30), None)),
        (index("15", OF_60, &short("TXF", "1329599A 17234567 00")), refused(11, Some(41))),
        (index("15", OF_60, &short("TXF", "13295995 1723456F 00")), refused(11, Some(49))),
        (index("48", OF_64, &long("2330    ", "A8595999 00598500 05")), (11, Some(34), Some(44))),
        (index("48", OF_64, &long("2330    ", "08595999 C0598500 05")), (11, Some(34), Some(52))),
        (index("15", "24000000 00000007 02", &txf()), refused(12, None)),
        (index("15", OF_60, &short("TXF", "24000000 17234567 00")), refused(12, None)),
        (index("15", "99999999 00000007 02", &txf()), refused(12, None)),
        (index("15", OF_60, &short("TXF", "99999999 17234567 00")), refused(12, None)),
        (index("15", OF_60, &short("T\u{1f}F", "13295995 17234567 00")), refused(13, None)),
        (index("15", OF_60, &short("TX\u{7f}", "13295995 17234567 00")), refused(13, None)),
        (index("15", OF_60, &short("TXF", "13295995 17234567 02")), refused(13, None)),
        (index("48", OF_64, &long("2330    ", "08595999 00598500 08")), (13, Some(34), None)),
        (index("48", OF_64, &long("2330   \0", "08595999 00598500 05")), (13, Some(34), None)),
    ] {
        assert_eq!(told(&bytes), expected, "{bytes:02X?}");
    }
    // The cases that go with the numbers.
    assert_eq!(read(&[]), Answer::NoFrame { why: NoFrame::TooFewBytes, place: None });
    let version = index("15", "13300025 00000007 03", &txf());
    assert_eq!(read(&version), Answer::Refused { length: 29, why: Refusal::Version, place: None });
}

#[test]
fn the_first_fault_answers() {
    // All faults at once; then from the top down they are put right one after another.
    let bytes = |faults: usize| {
        let has = |fault: usize| faults > fault;
        let contract = if has(0) { "T\u{1f}F" } else { "TXF" };
        let status = if has(0) { "80" } else { "00" };
        let time = if has(1) { "24000000" } else { "13295995" };
        let value = if has(2) { "1723456A" } else { "17234567" };
        let mut body = short(contract, &format!("{time} {value} {status}"));
        if has(3) {
            body.push(b'.');
        }
        let version = if has(4) { "03" } else { "02" };
        let codes = if has(5) { "26" } else { "15" };
        let sent = if has(6) { "2400000F" } else { "13300025" };
        let mut bytes = index(codes, &format!("{sent} 00000007 {version}"), &body);
        let check = bytes.len() - 3;
        bytes[check] ^= u8::from(has(7));
        bytes[check + 2] ^= u8::from(has(8));
        if has(9) {
            bytes.pop();
        }
        if has(10) {
            bytes[13] = 0xAA;
        }
        if has(11) {
            bytes.truncate(13);
        }
        if has(12) {
            bytes[0] = 26;
        }
        bytes
    };
    let numbers: Vec<u8> = (0..=13).rev().map(|faults| read(&bytes(faults)).number()).collect();
    assert_eq!(numbers, [1, 2, 3, 2, 4, 5, 6, 7, 8, 9, 11, 12, 13, 0]);
    // A header time that is none comes behind the body's length and digits, and before its other fields.
    let sent = |body: &[u8]| read(&index("15", "24000000 00000007 02", body)).number();
    assert_eq!(sent(&[b' '; 13]), 9);
    assert_eq!(sent(&short("TXF", "13295995 1723456A 00")), 11);
    assert_eq!(sent(&short("T\u{1f}F", "13295995 17234567 80")), 12);
}

/// A frame that is accepted and its packed bytes: the body's length, the header's other fields, time and value.
fn cases() -> [(Vec<u8>, Range<usize>); 4] {
    [
        (index("15", OF_60, &txf()), 17..25),
        (index("48", OF_64, &short("TE ", "08595999 00598500 05")), 17..25),
        (index("45", OF_60, &long("TXF     ", "13295995 17234567 01")), 22..30),
        (index("18", OF_64, &tsmc()), 22..30),
    ]
}

/// The frame with other halves, and a check byte that is right unless it is one of them.
fn with(frame: &[u8], halves: &[(usize, u8)]) -> Vec<u8> {
    let mut bytes = frame.to_vec();
    let check = bytes.len() - 3;
    for &(place, half) in halves {
        let byte = &mut bytes[place / 2];
        let changed = if place % 2 == 1 { *byte & 0xF0 | half } else { half << 4 | *byte & 0x0F };
        let difference = *byte ^ changed;
        *byte = changed;
        if (1..check).contains(&(place / 2)) {
            bytes[check] ^= difference;
        }
    }
    bytes
}

/// The answer, length and place that a bad half has to give; nothing where it is not packed.
fn expected(frame: &[u8], body: &Range<usize>, place: usize, half: u8) -> Option<(u8, Option<usize>, Option<usize>)> {
    match place / 2 {
        _ if half < 10 => None,
        12 | 13 => Some((3, None, Some(place))),
        3..=11 => Some((6, Some(frame.len()), Some(place))),
        at if body.contains(&at) => Some((11, Some(frame.len()), Some(place))),
        _ => None,
    }
}

#[test]
fn every_half_and_every_value() {
    for (frame, body) in cases() {
        assert_eq!(told(&frame), (0, Some(frame.len()), None));
        for place in 0..2 * frame.len() {
            for half in 0..=15 {
                let bytes = with(&frame, &[(place, half)]);
                match expected(&frame, &body, place, half) {
                    Some(expected) => assert_eq!(told(&bytes), expected, "{bytes:02X?}"),
                    None => {
                        assert_eq!(told(&bytes).2, None, "{bytes:02X?}");
                        assert!(![6, 11].contains(&told(&bytes).0), "{bytes:02X?}");
                    }
                }
            }
        }
    }
}

#[test]
fn the_lower_of_two() {
    for (frame, body) in cases() {
        let packed = |place: &usize| expected(&frame, &body, *place, 15).is_some();
        let of = |place: usize| expected(&frame, &body, place, 15);
        for place in (0..2 * frame.len()).filter(packed) {
            for other in (place + 1..2 * frame.len()).filter(packed) {
                // The body's length, bytes 12 and 13, is looked at before the other fields.
                let first = if of(other).unwrap().0 == 3 && of(place).unwrap().0 != 3 { other } else { place };
                assert_eq!(Some(told(&with(&frame, &[(other, 12), (place, 15)]))), of(first));
            }
        }
    }
}

#[test]
fn all_lengths() {
    for length in 0..=0xFFFF_u16 {
        let text = format!("{length:04X}");
        let bytes = [&hex("1B 31 35 13 30 00 25 00 00 00 07 02")[..], &length.to_be_bytes()].concat();
        match text.find(|digit: char| digit.is_ascii_uppercase()) {
            Some(at) => assert_eq!(told(&bytes), (3, None, Some(24 + at)), "{text}"),
            None if *text <= *"1007" => assert_eq!(told(&bytes), (2, None, None), "{text}"),
            None => assert_eq!(told(&bytes), (3, None, None), "{text}"),
        }
    }
    // Bodies of blanks: the time is 20:20:20.20, and a reserved bit of the status is set.
    for length in 0..=1010 {
        let bytes = index("15", OF_60, &vec![b' '; length]);
        let number = match length {
            12 | 17 => 13,
            1008.. => 3,
            _ => 9,
        };
        let whole = (number != 3).then_some(length + 17);
        assert_eq!(told(&bytes), (number, whole, None), "{length}");
    }
}

#[test]
fn bytes_of_the_header() {
    for byte in 0..=255 {
        let mut bytes = index("15", OF_60, &txf());
        bytes[26] ^= bytes[1] ^ byte;
        bytes[1] = byte;
        assert_eq!(read(&bytes).number(), if [b'1', b'4'].contains(&byte) { 0 } else { 7 }, "{byte}");
        let mut bytes = index("15", OF_60, &txf());
        bytes[26] ^= bytes[2] ^ byte;
        bytes[2] = byte;
        let number = match byte {
            b'5' => 0,
            b'8' => 8,
            _ => 7,
        };
        assert_eq!(read(&bytes).number(), number, "{byte}");
    }
    for version in 0..100 {
        let of = |codes, right| {
            let number = read(&index(codes, &format!("13300025 00000007 {version:02}"), &txf())).number();
            assert_eq!(number, if version == right { 0 } else { 8 }, "{codes} {version}");
        };
        of("15", 2);
        of("48", 1);
    }
}

#[test]
fn bytes_of_the_body() {
    for status in 0..=255_u8 {
        let number = |codes, head, body: &[u8]| {
            let mut body = body.to_vec();
            *body.last_mut().unwrap() = status;
            read(&index(codes, head, &body)).number()
        };
        let of = |free: u8| if status > free { 13 } else { 0 };
        assert_eq!([number("15", OF_60, &txf()), number("45", OF_60, &tsmc())], [of(1); 2], "{status}");
        assert_eq!([number("18", OF_64, &txf()), number("48", OF_64, &tsmc())], [of(7); 2], "{status}");
    }
    for (codes, head, right, contract) in [("15", OF_60, txf(), 3), ("48", OF_64, tsmc(), 8)] {
        for place in 0..contract {
            for byte in 0..=255 {
                let mut body = right.clone();
                body[place] = byte;
                let number = if (32..=126).contains(&byte) { 0 } else { 13 };
                assert_eq!(read(&index(codes, head, &body)).number(), number, "{place} {byte}");
            }
        }
    }
    // The value is free.
    for value in ["00000000", "00000001", "99999999"] {
        let answer = read(&index("15", OF_60, &short("TXF", &format!("13295995 {value} 01"))));
        let message = Message { value: Thousandths(value.parse().unwrap()), status: 1, ..i060() };
        assert_eq!(answer, Answer::Accepted { length: 29, message });
    }
}

#[test]
fn times() {
    for hour in 0..100 {
        for minute in (0..100).step_by(if hour < 25 { 1 } else { 33 }) {
            for second in [0, 1, 58, 59, 60, 61, 98, 99] {
                let is_time = hour < 24 && minute < 60 && second < 60;
                let text = format!("{hour:02}{minute:02}{second:02}{:02}", (hour + minute + second) % 100);
                let number = if is_time { 0 } else { 12 };
                let header = index("15", &format!("{text} 00000007 02"), &txf());
                let body = index("48", OF_64, &long("2330    ", &format!("{text} 00598500 05")));
                assert_eq!([read(&header).number(), read(&body).number()], [number; 2], "{text}");
            }
        }
    }
}

fn keeps(message: Message) {
    let mut buffer = [0xEE; 50];
    let length = write(&message, &mut buffer).unwrap_or_else(|why| panic!("{why:?}: {message:?}"));
    assert_eq!(length, message.contract_length + 26);
    assert_eq!(read(&buffer), Answer::Accepted { length, message });
    assert!(buffer[length..].iter().all(|&byte| byte == 0xEE));
    let mut exact = vec![0xDD; length];
    assert_eq!(write(&message, &mut exact), Ok(length));
    assert_eq!(exact, buffer[..length]);
    for short in 0..length {
        let mut buffer = vec![0xEE; short];
        assert_eq!(write(&message, &mut buffer).map_err(|why| why.number()), Err(15));
        assert!(buffer.iter().all(|&byte| byte == 0xEE));
    }
}

fn breaks(message: Message) {
    for size in [0, 28, 33, 50] {
        let mut buffer = vec![0xEE; size];
        assert_eq!(write(&message, &mut buffer).map_err(|why| why.number()), Err(14), "{message:?}");
        assert!(buffer.iter().all(|&byte| byte == 0xEE));
    }
}

#[test]
fn written() {
    let mut buffer = [0; 34];
    assert_eq!(write(&i060(), &mut buffer), Ok(29));
    assert_eq!(buffer[..29], hex(I060));
    assert_eq!(write(&i064(), &mut buffer), Ok(34));
    assert_eq!(buffer[..], hex(I064));
    for message in [i060(), i064()] {
        keeps(message);
        keeps(Message { market: b'1', ..message });
        keeps(Message { market: b'4', ..message });
        keeps(Message { seq: 0, ..message });
        keeps(Message { seq: 99_999_999, ..message });
        keeps(Message { value: Thousandths(0), ..message });
        keeps(Message { value: Thousandths::MAX, ..message });
        keeps(Message { contract_length: 8, contract: [b' '; 8], ..message });
        keeps(Message { contract_length: 3, contract: *b"~~~\0\0\0\0\0", ..message });
        for time in [0, 99, 5999, 595_999, 23_595_999] {
            keeps(Message { sent: time, ..message });
            keeps(Message { time, ..message });
        }
        for time in [6000, 600_000, 24_000_000, 23_600_000, 23_596_000, 99_999_999, 100_000_000, u32::MAX] {
            breaks(Message { sent: time, ..message });
            breaks(Message { time, ..message });
        }
        for market in [0, 1, 4, b'0', b'2', b'3', b'5', b'8', 255] {
            breaks(Message { market, ..message });
        }
        breaks(Message { seq: 100_000_000, ..message });
        breaks(Message { seq: u32::MAX, ..message });
        breaks(Message { value: Thousandths(100_000_000), ..message });
        for contract_length in (0..=20).chain([usize::MAX]).filter(|length| ![3, 8].contains(length)) {
            for contract in [*b"TXF\0\0\0\0\0", [b' '; 8], [0; 8]] {
                breaks(Message { contract_length, contract, ..message });
            }
        }
        // The unused places, and a short contract called a long one.
        for place in 3..8 {
            let mut contract = *b"TXF\0\0\0\0\0";
            contract[place] = b' ';
            breaks(Message { contract_length: 3, contract, ..message });
        }
        breaks(Message { contract_length: 8, contract: *b"TXF\0\0\0\0\0", ..message });
        for (place, byte) in [(0, 0), (1, 31), (2, 127), (0, 255)] {
            let mut wrong = message;
            wrong.contract[place] = byte;
            breaks(wrong);
        }
    }
    for status in 0..=255 {
        let [first, second] = [i060(), i064()].map(|message| Message { status, ..message });
        if status <= 1 {
            keeps(first)
        } else {
            breaks(first)
        }
        if status <= 7 {
            keeps(second)
        } else {
            breaks(second)
        }
    }
    // Of the other kind the version and the reserved bits differ.
    keeps(Message { kind: Kind::I064, ..i060() });
    breaks(Message { kind: Kind::I060, ..i064() });
    keeps(Message { kind: Kind::I060, status: 1, ..i064() });
}

fn moves(bytes: &[u8], line: Line) -> Vec<(usize, u8, usize, walk::Kind)> {
    walk_of::<Derivatives2015>(bytes, line)
        .map(|step| (step.place, step.answer.number(), step.bytes, step.kind))
        .collect()
}

fn tallied(bytes: &[u8], line: Line) -> [u64; 4] {
    let mut tally = Tally { waiting: 77, ..Tally::default() };
    assert_eq!(tally.walk_of::<Derivatives2015>(bytes, line), Ok(()));
    let figures = [tally.accepted, tally.refused, tally.skipped, tally.waiting];
    assert_eq!(figures.iter().sum::<u64>(), bytes.len() as u64);
    figures
}

#[test]
fn walked() {
    use walk::Kind::*;
    // Noise, a frame, a refused one, one without a body, a wrong check byte, a long one, a cut one.
    let mut wrong = hex(I060);
    wrong[26] ^= 1;
    let line = [
        hex("41"),
        hex(I060),
        index("16", OF_60, &txf()),
        index("15", OF_60, &[]),
        wrong,
        hex(I064),
        hex(I060)[..20].to_vec(),
    ]
    .concat();
    let mut shared =
        vec![(0, 1, 1, Skipped), (1, 0, 29, Accepted), (30, 7, 29, Refused), (59, 9, 17, Refused), (76, 5, 1, Skipped)];
    shared.extend((77..105).map(|place| (place, 1, 1, Skipped)));
    shared.push((105, 0, 34, Accepted));
    let mut open = shared.clone();
    open.push((139, 2, 20, Waiting));
    assert_eq!(moves(&line, Line::Open), open);
    assert_eq!(tallied(&line, Line::Open), [63, 46, 30, 20]);
    let mut closed = shared;
    closed.push((139, 2, 1, Skipped));
    closed.extend((140..159).map(|place| (place, 1, 1, Skipped)));
    assert_eq!(moves(&line, Line::Closed), closed);
    assert_eq!(tallied(&line, Line::Closed), [63, 46, 50, 0]);
    assert_eq!(moves(&[], Line::Open), []);
    assert_eq!(tallied(&[], Line::Closed), [0; 4]);
    // Thirteen bytes may still become anything; the fourteenth settles a bad length, and so the byte behind it.
    assert_eq!(moves(&[27; 13], Line::Open), [(0, 2, 13, Waiting)]);
    assert_eq!(moves(&[27; 14], Line::Open), [(0, 3, 1, Skipped), (1, 2, 13, Waiting)]);
    assert_eq!(tallied(&[27; 14], Line::Closed), [0, 0, 14, 0]);
    // 16, and the tally stays.
    let before = Tally { accepted: u64::MAX - 28, ..Tally::default() };
    let mut tally = before;
    assert_eq!(tally.walk_of::<Derivatives2015>(&hex(I060), Line::Closed), Err(TooMuch));
    assert_eq!(tally, before);
}

/// What a program prints of a line that comes in pieces.
fn printed(program: &str, line: &[u8], piece: usize) -> String {
    let mut output = Vec::new();
    let input = Pieces(line, piece);
    match program {
        "listing" => list_of::<Derivatives2015, _, _>(input, &mut output),
        "messages" => messages::tell_of::<Derivatives2015, _, _>(input, &mut output),
        _ => refusals::tell_of::<Derivatives2015, _, _>(input, &mut output),
    }
    .unwrap();
    String::from_utf8(output).unwrap()
}

/// Each answer on one line, and what is printed of it.
fn line() -> Vec<u8> {
    let mut wrong_end = hex(I060);
    wrong_end[28] = 0x0B;
    let mut wrong_check = hex(I060);
    wrong_check[26] = 0xBE;
    [
        hex("41 42"),
        hex(I060),
        index("45", "23595999 00000000 02", &long("\"\\~ /a  ", "00000000 00000001 01")),
        hex("1B FF FF FF FF FF FF FF FF FF FF FF A0 00"),
        hex(I064),
        hex("1B FF FF FF FF FF FF FF FF FF FF FF 10 08"),
        hex(I060),
        wrong_end,
        hex(I060),
        wrong_check,
        index("15", "1330002A 00000007 02", &txf()),
        index("25", OF_60, &txf()),
        index("15", "13300025 00000007 01", &txf()),
        index("15", OF_60, &[]),
        index("15", OF_60, &short("TXF", "1329599A 17234567 00")),
        index("15", "24000000 00000007 02", &txf()),
        index("48", OF_64, &long("2330    ", "08595999 00598500 08")),
        hex(I060)[..12].to_vec(),
    ]
    .concat()
}

const LISTED: &str = "at,answer,bytes,format,seq
0,1,2,-,-
2,0,29,I060,7
31,0,34,I060,0
65,3,14,-,-
79,0,34,I064,99999999
113,3,14,-,-
127,0,29,I060,7
156,4,29,-,-
185,0,29,I060,7
214,5,29,-,-
243,6,29,-,-
272,7,29,-,-
301,8,29,-,-
330,9,17,-,-
347,11,29,-,-
376,12,29,-,-
405,13,34,-,-
439,2,12,-,-
total,155,196,100
";

const MESSAGES: &str = r#"{"at":2,"kind":"I060","seq":7,"market":"1","sent":"13:30:00.25","contract":"TXF","time":"13:29:59.95","value":"17234.567","status":0}
{"at":31,"kind":"I060","seq":0,"market":"4","sent":"23:59:59.99","contract":"\"\\~ /a  ","time":"00:00:00.00","value":"0.001","status":1}
{"at":79,"kind":"I064","seq":99999999,"market":"4","sent":"09:00:00.00","contract":"2330    ","time":"08:59:59.99","value":"598.500","status":5}
{"at":127,"kind":"I060","seq":7,"market":"1","sent":"13:30:00.25","contract":"TXF","time":"13:29:59.95","value":"17234.567","status":0}
{"at":185,"kind":"I060","seq":7,"market":"1","sent":"13:30:00.25","contract":"TXF","time":"13:29:59.95","value":"17234.567","status":0}
"#;

const REFUSALS: &str = r#"{"at":0,"answer":1,"bytes":2,"place":null,"hex":"4142","why":"no frame begins here: the first byte is not 1B"}
{"at":65,"answer":3,"bytes":14,"place":24,"hex":"1bffffffffffffffffffffffa000","why":"the length has a bad digit"}
{"at":113,"answer":3,"bytes":14,"place":null,"hex":"1bffffffffffffffffffffff1008","why":"the frame would be longer than 1024 bytes"}
{"at":156,"answer":4,"bytes":29,"place":null,"hex":"1b31351330002500000007020012545846132959951723456700bf0d0b","why":"the frame does not end in 0D 0A where its length says"}
{"at":214,"answer":5,"bytes":29,"place":null,"hex":"1b31351330002500000007020012545846132959951723456700be0d0a","why":"the check byte is not the exclusive-or of the bytes that it covers"}
{"at":243,"answer":6,"bytes":29,"place":13,"hex":"1b31351330002a00000007020012545846132959951723456700b00d0a","why":"the header, bytes 4 to 12, has a bad digit"}
{"at":272,"answer":7,"bytes":29,"place":null,"hex":"1b32351330002500000007020012545846132959951723456700bc0d0a","why":"the transmission code is not 1 or 4, or the kind is not 5 or 8"}
{"at":301,"answer":8,"bytes":29,"place":null,"hex":"1b31351330002500000007010012545846132959951723456700bc0d0a","why":"the version is not the one of this kind"}
{"at":330,"answer":9,"bytes":17,"place":null,"hex":"1b31351330002500000007020000070d0a","why":"the body is not 12 or 17 bytes long"}
{"at":347,"answer":11,"bytes":29,"place":41,"hex":"1b313513300025000000070200125458461329599a1723456700b00d0a","why":"a packed field of the body has a bad digit"}
{"at":376,"answer":12,"bytes":29,"place":null,"hex":"1b313524000000000000070200125458461329599517234567009d0d0a","why":"a time is no time of day"}
{"at":405,"answer":13,"bytes":34,"place":null,"hex":"1b343809000000999999990100173233333020202020085959990059850008540d0a","why":"a contract byte is not 32 to 126, or a reserved status bit is set"}
{"at":439,"answer":2,"bytes":12,"place":null,"hex":"1b3135133000250000000702","why":"the line ends before this frame does"}
"#;

#[test]
fn what_the_programs_print() {
    let line = line();
    for piece in [1, 2, 13, 14, 29, 100, usize::MAX] {
        assert_eq!(printed("listing", &line, piece), LISTED, "in pieces of {piece}");
        assert_eq!(printed("messages", &line, piece), MESSAGES, "in pieces of {piece}");
        assert_eq!(printed("refusals", &line, piece), REFUSALS, "in pieces of {piece}");
    }
}

#[test]
fn pieces_make_no_difference() {
    // More than one buffer: frames, outlines of 1,024 bytes, noise with and without 27.
    let mut line = Vec::new();
    for round in 0..300 {
        line.extend(self::line());
        line.extend(vec![b'.'; round]);
        line.extend(hex(["1B", "1B3135", "1B1B1B", "411B", "1B31351330002500000007021007"][round % 5]));
        if round % 7 == 0 {
            line.extend(index("15", OF_60, &[b' '; 1007]));
            line.extend(index("15", OF_60, &[b' '; 1008]));
        }
        line.extend(hex(I064));
    }
    assert!(line.len() > 200_000);
    for program in ["listing", "messages", "refusals"] {
        let whole = printed(program, &line, usize::MAX);
        for piece in [1, 3, 1023, 1024, 1025, 65_536] {
            assert!(printed(program, &line, piece) == whole, "{program} in pieces of {piece}");
        }
    }
    // The listing beside the walk over the whole line.
    let mut figures = [0; 3];
    walk_of::<Derivatives2015>(&line, Line::Closed).for_each(|step| figures[step.kind as usize] += step.bytes);
    let total = format!("\ntotal,{},{},{}\n", figures[0], figures[1], figures[2]);
    assert!(printed("listing", &line, usize::MAX).ends_with(&total));
}

/// The exit status of a program with words behind its name, and what it prints of a line.
fn run(program: &str, words: &[&str], line: &[u8]) -> (Option<i32>, String) {
    let mut command = Command::new(program);
    let command = command.args(words).stdin(Stdio::piped()).stdout(Stdio::piped()).stderr(Stdio::null());
    let mut child = command.spawn().unwrap();
    // A program that reads nothing may have ended already.
    let _ = child.stdin.take().unwrap().write_all(line);
    let output = child.wait_with_output().unwrap();
    (output.status.code(), String::from_utf8(output.stdout).unwrap())
}

#[test]
fn words_behind_a_programs_name() {
    for (program, text) in [
        (env!("CARGO_BIN_EXE_listing"), LISTED),
        (env!("CARGO_BIN_EXE_messages"), MESSAGES),
        (env!("CARGO_BIN_EXE_refusals"), REFUSALS),
    ] {
        assert_eq!(run(program, &["derivatives-2015"], &line()), (Some(0), text.into()));
        // Without the word it is a line of the stock exchange.
        let (status, of_stock) = run(program, &[], &line());
        assert_eq!(status, Some(0));
        assert_ne!(of_stock, text);
        for words in [&["derivatives"][..], &["derivatives-2017"], &["derivatives-2015", "derivatives-2015"], &[""]] {
            assert_eq!(run(program, words, &line()), (Some(2), String::new()), "{words:?}");
        }
    }
    let (_, of_stock) = run(env!("CARGO_BIN_EXE_listing"), &[], &hex(I060));
    // 1B 31 35 claims 3,135 bytes.
    assert_eq!(of_stock, "at,answer,bytes,format,seq\n0,3,29,-,-\ntotal,0,0,29\n");
}
