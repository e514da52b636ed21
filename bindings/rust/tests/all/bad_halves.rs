//! Where the bad digit is, in half bytes from a frame's first byte on: the places are written by hand from the layouts.

use std::ops::Range;
use std::{iter, slice};

use trivsome::*;

use crate::frames::{no_frame, prices, quote, refused, HALT, NOTICE};

/// The halves of the length, and of the rest of the header.
const LENGTH: Range<usize> = 2..6;
const HEADER: Range<usize> = 6..20;

/// A frame with one half made another, and the check byte that goes with it.
fn with(frame: &[u8], half: usize, value: u8) -> Vec<u8> {
    let mut other = frame.to_vec();
    let (byte, check) = (half / 2, frame.len() - 3);
    other[byte] = match half % 2 {
        0 => other[byte] & 0x0F | value << 4,
        _ => other[byte] & 0xF0 | value,
    };
    other[check] ^= frame[byte] ^ other[byte];
    other
}

/// All readings and the move at the start say this.
fn all_say(frame: &[u8], expected: Answer) {
    let outcome = read(frame, 0);
    assert_eq!(outcome.answer(), expected);
    assert_eq!((outcome.number(), outcome.length()), (expected.number(), expected.length()));
    assert_eq!((outcome.bad_half(), outcome.seq(), outcome.format()), (expected.bad_half(), 0, 0));
    let not_read = [
        read_notice(frame, 0).expect_err("refused"),
        read_quote(frame, 0).expect_err("refused"),
        read_prices(frame, 0).expect_err("refused"),
        read_halt(frame, 0).expect_err("refused"),
    ];
    assert_eq!(not_read.map(NotRead::answer), [expected; 4]);
    assert_eq!(not_read.map(NotRead::bad_half), [expected.bad_half(); 4]);
    assert_eq!(read_message(frame, 0), Err(expected));
    let bytes = if expected.length() == 0 { 1 } else { expected.length() };
    for line in [Line::Open, Line::Closed] {
        assert_eq!(Moves::new(frame, line).next(), Some(Move { at: 0, bytes, answer: expected }));
    }
}

/// A half of a good frame made bad, alone, is told beside the number.
fn is_told(frame: &[u8], number: u8, half: usize, value: u8) {
    let (length, bad_half) = (frame.len(), Some(half as u16));
    all_say(
        &with(frame, half, value),
        match number {
            3 => Answer::NoFrame { number, bad_half },
            _ => Answer::Refused { number, length, bad_half },
        },
    );
}

/// The length, the header and these halves of the body hold digits, of which each is told when it is bad; of no other half of
/// the body a place is told, whatever it holds.
fn digits_are_in(frame: &[u8], body: &[Range<usize>]) {
    let is_packed = |half: &usize| body.iter().any(|range| range.contains(half));
    for value in [10, 11, 15] {
        LENGTH.for_each(|half| is_told(frame, 3, half, value));
        HEADER.for_each(|half| is_told(frame, 6, half, value));
    }
    for half in 20..2 * (frame.len() - 3) {
        for value in 0..16 {
            match value {
                10..=15 if is_packed(&half) => is_told(frame, 11, half, value),
                _ if is_packed(&half) => {}
                _ => assert_eq!(read(&with(frame, half, value), 0).bad_half(), None),
            }
        }
    }
}

/// A price begins at this half: 1 to 9 there is bad too, and 0 is not.
fn a_price_begins(frame: &[u8], half: usize) {
    assert_eq!(read(&with(frame, half, 0), 0).number(), 0);
    (1..16).for_each(|value| is_told(frame, 11, half, value));
}

#[test]
fn every_half_of_a_notice() {
    // the category, and no text
    digits_are_in(&NOTICE, slice::from_ref(&(20..22)));
}

#[test]
fn every_half_of_a_halt() {
    // both times
    digits_are_in(&HALT, &[32..38, 38..44]);
}

#[test]
fn every_half_of_a_quote() {
    // time, total, and pairs of nine bytes
    digits_are_in(&quote(0x00, 0), &[32..44, 50..58]);
    digits_are_in(&quote(0x81, 1), &[32..44, 50..58, 58..76]);
    digits_are_in(&quote(0xDA, 11), &[32..44, 50..58, 58..256]);
    (0..11).for_each(|pair| a_price_begins(&quote(0xDA, 11), 58 + 18 * pair));
}

#[test]
fn every_half_of_prices() {
    // the count; in each slot, behind its code, four prices, the total and the time
    let frame = prices([1, 3, 0, 2]);
    let slots = (0..10).map(|slot| 34 + 72 * slot..94 + 72 * slot);
    digits_are_in(&frame, &iter::once(20..22).chain(slots).collect::<Vec<_>>());
    for slot in 0..10 {
        [34, 44, 54, 64].iter().for_each(|price| a_price_begins(&frame, price + 72 * slot));
    }
}

#[test]
fn edges_by_their_places() {
    let all = quote(0xDA, 11);
    // the first half of the time, the last of the last quantity, and the last of all in prices
    is_told(&all, 11, 32, 10);
    is_told(&all, 11, 255, 10);
    is_told(&prices([0; 4]), 11, 741, 10);
    // any high and low halves of the shortest lines that have a length
    for (half, line) in (2..).zip([[0x1B, 0xA0, 0x14], [0x1B, 0x0A, 0x14], [0x1B, 0x00, 0xA4], [0x1B, 0x00, 0x1A]]) {
        all_say(&line, Answer::NoFrame { number: 3, bad_half: Some(half) });
    }
}

#[test]
fn of_two_the_lower_is_told() {
    let all = quote(0xDA, 11);
    for [first, second] in [[32, 33], [33, 34], [43, 50], [57, 58], [58, 59], [76, 255], [254, 255]] {
        let both = with(&with(&all, second, 15), first, 10);
        all_say(&both, Answer::Refused { number: 11, length: 131, bad_half: Some(first as u16) });
    }
    // a price's first half of 1, and a half above 9 before it and behind it
    for (half, told) in [(75, 75), (77, 76)] {
        let both = with(&with(&all, 76, 1), half, 12);
        all_say(&both, Answer::Refused { number: 11, length: 131, bad_half: Some(told) });
    }
    // the length before the header, and the header before the body
    all_say(&with(&with(&HALT, 6, 10), 5, 10), Answer::NoFrame { number: 3, bad_half: Some(5) });
    all_say(&with(&with(&HALT, 32, 10), 19, 10), Answer::Refused { number: 6, length: 26, bad_half: Some(19) });
    // in slots: the last half of one and the first of the next
    let both = with(&with(&prices([0; 4]), 106, 10), 93, 10);
    all_say(&both, Answer::Refused { number: 11, length: 374, bad_half: Some(93) });
}

#[test]
fn a_length_out_of_range_has_no_place() {
    for [high, low] in [[0x00, 0x00], [0x00, 0x13], [0x10, 0x25], [0x99, 0x99]] {
        all_say(&[0x1B, high, low], no_frame(3));
    }
    // with fewer bytes it is not looked at
    assert_eq!(read(&[0x1B, 0xAA], 0).answer(), no_frame(2));
}

#[test]
fn no_other_answer_has_a_place() {
    all_say(&[0x41], no_frame(1));
    let mut other = with(&NOTICE, 20, 10);
    other[11] ^= 1;
    all_say(&other, no_frame(5));
    other[13] ^= 1;
    all_say(&other, no_frame(4));
    assert_eq!(read(&other[..13], 0).answer(), no_frame(2));
    // the business, the format, the version and the length go before a bad digit of the body
    for (half, value, number) in [(7, 2, 7), (9, 7, 7), (11, 2, 8)] {
        all_say(&with(&with(&HALT, 32, 10), half, value), refused(number, 26));
    }
    all_say(&with(&quote(0xA2, 3), 32, 10), refused(9, 59));
    all_say(&with(&quote(0x60, 6), 32, 10), refused(10, 86));
    // a time and a code
    all_say(&with(&HALT, 32, 9), refused(12, 26));
    all_say(&with(&HALT, 20, 0), refused(13, 26));
}

#[test]
fn an_accepted_number_is_no_place() {
    let mut buffer = [0; 14];
    for seq in [0, 1, 2, 6, 21, 22, 99_999_999] {
        let notice = Notice::new(seq, 9, b"").expect("short");
        assert_eq!(write_notice(&notice, &mut buffer), Ok(14));
        let outcome = read(&buffer, 0);
        assert_eq!((outcome.seq(), outcome.bad_half()), (seq, None));
        let frame = Frame { format: 5, seq, length: 14 };
        assert_eq!((outcome.answer(), outcome.answer().bad_half()), (Answer::Accepted(frame), None));
        let other = read_quote(&buffer, 0).expect_err("it is no quote");
        assert_eq!((other, other.bad_half()), (NotRead::OtherFormat(frame), None));
    }
}

#[test]
fn a_walk_tells_places_from_each_frame_on() {
    let line = [&b"AB"[..], &with(&HALT, 33, 10), &with(&NOTICE, 3, 10)[..3], &NOTICE].concat();
    let told: Vec<_> =
        Moves::new(&line, Line::Open).map(|step| (step.at, step.bytes, step.answer.bad_half())).collect();
    let noise = [(0, 1, None), (1, 1, None)];
    let frames = [(2, 26, Some(33)), (28, 1, Some(3)), (29, 1, None), (30, 1, None), (31, 14, None)];
    assert_eq!(told, [&noise[..], &frames].concat());
}

#[test]
fn words() {
    let say = |line: &[u8]| read(line, 0).answer().to_string();
    assert_eq!(
        say(&with(&quote(0x00, 0), 41, 10)),
        "11: a bad digit in the body, at half 41 (the low half of byte 21, from 1)"
    );
    assert_eq!(say(&with(&NOTICE, 6, 10)), "6: a bad digit in the header, at half 6 (the high half of byte 4, from 1)");
    assert_eq!(say(&[0x1B, 0x0A, 0x14]), "3: a bad digit in the length, at half 3 (the low half of byte 2, from 1)");
    assert_eq!(say(&[0x1B, 0x00, 0x13]), "3: a frame of over 1,024 bytes, or of the stock exchange under 14");
    let why = read_quote(&with(&HALT, 32, 10), 0).expect_err("refused");
    assert_eq!(why.to_string(), "11: a bad digit in the body, at half 32 (the high half of byte 17, from 1)");
    assert_eq!(format!("{:?}", read(&[0x1B, 0x0A, 0x14], 0)), "NoFrame { number: 3, bad_half: Some(3) }");
}
