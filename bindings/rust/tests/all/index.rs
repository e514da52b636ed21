//! Index values of the derivatives exchange: frames and places written by hand from the layout.

use trivsome::*;

use crate::frames::{no_frame, refused, NOTICE};

/// I060, a short contract: futures, TXF at 17345.678 at 09:00:15.00, sent at 09:00:15.12 with number 1.
const SHORT: [u8; 29] = [
    0x1B, 0x31, 0x35, 0x09, 0x00, 0x15, 0x12, 0x00, 0x00, 0x00, 0x01, 0x02, 0x00, 0x12, 0x54, 0x58, 0x46, 0x09, 0x00,
    0x15, 0x00, 0x17, 0x34, 0x56, 0x78, 0x00, 0x40, 0x0D, 0x0A,
];

/// I064, a long contract: options, 2330 at 1045.000 at 08:59:59.00, all three status bits, sent at 08:59:59.99 with number 83.
const LONG: [u8; 34] = [
    0x1B, 0x34, 0x38, 0x08, 0x59, 0x59, 0x99, 0x00, 0x00, 0x00, 0x83, 0x01, 0x00, 0x17, 0x32, 0x33, 0x33, 0x30, 0x20,
    0x20, 0x20, 0x20, 0x08, 0x59, 0x59, 0x00, 0x01, 0x04, 0x50, 0x00, 0x07, 0x50, 0x0D, 0x0A,
];

/// The index values that they are.
const SHORT_INDEX: Index = Index {
    seq: 1,
    sent: 9_001_512,
    time: 9_001_500,
    value: Thousandths(17_345_678),
    market: b'1',
    kind: b'5',
    length: 3,
    status: 0,
    contract: *b"TXF\0\0\0\0\0",
};
const LONG_INDEX: Index = Index {
    seq: 83,
    sent: 8_595_999,
    time: 8_595_900,
    value: Thousandths(1_045_000),
    market: b'4',
    kind: b'8',
    length: 8,
    status: 7,
    contract: *b"2330    ",
};

/// A frame with one byte made another, and the check byte that goes with it.
fn with(frame: &[u8], at: usize, byte: u8) -> Vec<u8> {
    let (mut other, check) = (frame.to_vec(), frame.len() - 3);
    other[at] = byte;
    other[check] ^= frame[at] ^ byte;
    other
}

/// All readings and the move at the start say this, and leave a lent index value as it came.
fn say(frame: &[u8], expected: Answer) {
    let outcome = read_derivatives(frame, 0);
    assert_eq!((outcome.answer(), outcome.seq(), outcome.format()), (expected, 0, 0));
    let mut lent = LONG_INDEX;
    assert_eq!(read_index_into(frame, 0, &mut lent), Err(expected));
    assert_eq!(lent, LONG_INDEX);
    assert_eq!(read_index(frame, 0), Err(expected));
    let step = Move { at: 0, bytes: expected.length().max(1), answer: expected };
    let waits = expected.number() == 2;
    assert_eq!(Moves::derivatives(frame, Line::Open).next(), (!waits).then_some(step));
    assert_eq!(Moves::derivatives(frame, Line::Closed).next(), (!frame.is_empty()).then_some(step));
}

#[test]
fn an_index_value_is_read_and_written() {
    for (frame, index, format) in [(&SHORT[..], SHORT_INDEX, Index::I060), (&LONG[..], LONG_INDEX, Index::I064)] {
        let told = Frame { format, seq: index.seq, length: frame.len() };
        assert_eq!(read_derivatives(frame, 0).answer(), Answer::Accepted(told));
        assert_eq!(read_index(frame, 0), Ok((told, index)));
        let mut buffer = [0xEE; 35];
        assert_eq!(write_index(&index, &mut buffer), Ok(frame.len()));
        assert_eq!(buffer[..frame.len()], *frame);
        assert!(buffer[frame.len()..].iter().all(|&byte| byte == 0xEE));
        for room in 0..frame.len() {
            let mut buffer = [0xEE; 35];
            assert_eq!(write_index(&index, &mut buffer[..room]), Err(NotWritten::Buffer));
            assert_eq!(buffer, [0xEE; 35]);
        }
    }
    assert_eq!((SHORT_INDEX.contract(), LONG_INDEX.contract()), (&b"TXF"[..], &b"2330    "[..]));
    assert_eq!(
        (SHORT_INDEX.value.to_string(), Thousandths::MOST.to_string()),
        ("17345.678".into(), "99999.999".into())
    );
    assert_eq!(format!("{:9}|{:.1}", Thousandths(7), Thousandths(7)), "    0.007|0.007");
}

#[test]
fn what_breaks_a_rule_is_refused_by_its_number() {
    say(&[], no_frame(2));
    say(&SHORT[1..], no_frame(1));
    for cut in 1..29 {
        say(&SHORT[..cut], no_frame(2));
    }
    // the frame would have 17 and 1,007 bytes, the most, and one more
    say(&with(&with(&SHORT, 12, 0x10), 13, 0x07), no_frame(2));
    say(&with(&with(&SHORT, 12, 0x10), 13, 0x08), no_frame(3));
    let mut other = SHORT;
    other[27] = 0x0A;
    say(&other, no_frame(4));
    other = SHORT;
    other[26] ^= 1;
    say(&other, no_frame(5));
    say(&with(&SHORT, 1, b'2'), refused(7, 29));
    say(&with(&SHORT, 2, b'6'), refused(7, 29));
    say(&with(&SHORT, 11, 0x01), refused(8, 29));
    say(&with(&SHORT, 2, b'8'), refused(8, 29));
    say(&with(&SHORT, 3, 0x24), refused(12, 29));
    say(&with(&LONG, 23, 0x60), refused(12, 34));
    say(&with(&SHORT, 16, 0x1F), refused(13, 29));
    say(&with(&LONG, 14, 0x7F), refused(13, 34));
    say(&with(&SHORT, 25, 0x02), refused(13, 29));
    say(&with(&LONG, 30, 0x08), refused(13, 34));
    // a body of 13 bytes, and of none
    let mut longer = with(&SHORT, 13, 0x13);
    longer.insert(25, 0);
    say(&longer, refused(9, 30));
    let mut empty = with(&SHORT, 13, 0x00);
    empty.drain(14..26);
    let check = empty[1..14].iter().fold(0, |sum, byte| sum ^ byte);
    empty[14] = check;
    say(&empty, refused(9, 17));
    // a frame of the other exchange: its last two bytes are no length of a body
    say(&NOTICE, no_frame(3).with_half(25));
}

/// An answer with a place.
trait WithHalf {
    fn with_half(self, half: u16) -> Self;
}

impl WithHalf for Answer {
    fn with_half(self, half: u16) -> Answer {
        match self {
            Answer::NoFrame { number, .. } => Answer::NoFrame { number, bad_half: Some(half) },
            Answer::Refused { number, length, .. } => Answer::Refused { number, length, bad_half: Some(half) },
            accepted => accepted,
        }
    }
}

#[test]
fn a_bad_digit_is_told_by_its_half() {
    for (frame, time) in [(&SHORT[..], 34), (&LONG[..], 44)] {
        let length = frame.len();
        for half in 2..2 * (length - 3) {
            let (byte, low) = (half / 2, half % 2 == 1);
            let bad = if low { frame[byte] & 0xF0 | 0x0A } else { frame[byte] & 0x0F | 0xF0 };
            let expected = match half {
                6..24 => refused(6, length),
                24..28 => no_frame(3),
                _ if (time..time + 16).contains(&half) => refused(11, length),
                _ => continue,
            };
            say(&with(frame, byte, bad), expected.with_half(half as u16));
        }
    }
}

#[test]
fn an_index_value_that_breaks_a_rule_is_not_written() {
    let wrong = [
        Index { seq: 100_000_000, ..SHORT_INDEX },
        Index { sent: 24_000_000, ..SHORT_INDEX },
        Index { time: 9_601_500, ..SHORT_INDEX },
        Index { value: Thousandths(Thousandths::MOST.0 + 1), ..SHORT_INDEX },
        Index { market: b'2', ..SHORT_INDEX },
        Index { kind: b'6', ..SHORT_INDEX },
        Index { length: 8, ..SHORT_INDEX },
        Index { length: 4, ..SHORT_INDEX },
        Index { length: 0, ..SHORT_INDEX },
        Index { length: 255, ..LONG_INDEX },
        Index { length: 3, ..LONG_INDEX },
        Index { status: 2, ..SHORT_INDEX },
        Index { status: 8, ..LONG_INDEX },
        Index { contract: *b"TXF\0\0\0\0 ", ..SHORT_INDEX },
        Index { contract: *b"TX\0\0\0\0\0\0", ..SHORT_INDEX },
        Index { contract: *b"2330   \x7F", ..LONG_INDEX },
        Index::default(),
    ];
    for index in wrong {
        for room in [0, 28, 35] {
            let mut buffer = [0xEE; 35];
            assert_eq!(write_index(&index, &mut buffer[..room]), Err(NotWritten::Message), "{index:?}");
            assert_eq!(buffer, [0xEE; 35]);
        }
    }
    let most = Index { seq: 99_999_999, sent: 23_595_999, time: 0, value: Thousandths::MOST, ..SHORT_INDEX };
    let mut buffer = [0xEE; 29];
    assert_eq!(write_index(&most, &mut buffer), Ok(29));
    assert_eq!(read_index(&buffer, 0).map(|(_, index)| index), Ok(most));
}

#[test]
fn a_line_is_walked() {
    let line = [b"AB", &SHORT[..], &with(&LONG, 1, b'0'), &LONG[..20]].concat();
    let mut moves = Moves::derivatives(&line, Line::Open);
    assert_eq!(moves.by_ref().map(|step| step.bytes).collect::<Vec<_>>(), [1, 1, 29, 34]);
    assert_eq!(moves.rest(), &LONG[..20]);
    let mut tally = Tally::default();
    assert_eq!(tally.walk_derivatives(&line, Line::Open), Ok(()));
    assert_eq!(tally, Tally { accepted: 29, refused: 34, skipped: 2, waiting: 20 });
    assert_eq!(tally.walk_derivatives(&line, Line::Closed), Ok(()));
    assert_eq!(tally, Tally { accepted: 58, refused: 68, skipped: 24, waiting: 0 });
    let full = Tally { skipped: u64::MAX - 84, waiting: 9, ..Tally::default() };
    let mut tally = full;
    assert_eq!(tally.walk_derivatives(&line, Line::Closed), Err(TooMuch));
    assert_eq!(tally, full);
}
