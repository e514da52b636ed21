//! The writing: round trips, 14 before 15, and buffers that keep what they held.

use crate::build::*;
use second::five::Notice;
use second::nineteen::{Event, Halt, Resume, State};
use second::six::{Pair, Quote};
use second::twelve::{Prices, Slot};
use second::units::{Price, Quantity};
use second::{read, write, Answer, Message};

fn notice() -> Notice {
    let mut text = [0; 60];
    text[..5].copy_from_slice(b"\x1b\x00\xfftx");
    Notice { number: 7, category: 90, text_length: 5, text }
}

fn quote() -> Quote {
    let mut pairs = [Pair::default(); 11];
    pairs[..4].fill(Pair { price: Price(995_000), quantity: Quantity(250) });
    Quote {
        number: 8,
        code: *b"2330  ",
        time: 90_415_061_278,
        reveal: 0xA2,
        limit: 0x1B,
        status: 0xFF,
        total: Quantity(16_423),
        pairs,
    }
}

fn prices() -> Prices {
    let mut slots = [Slot::UNUSED; 10];
    slots[0] = Slot { code: *b"1101  ", opening: Price(125_000), time: 999_999_999_999, ..Slot::UNUSED };
    slots[1] = Slot { code: *b"000000", ..Slot::UNUSED };
    Prices { number: 9, count: 2, slots }
}

fn halt() -> Halt {
    Halt {
        number: 10,
        code: *b"2330  ",
        event: Event::Halted { at: 91_200, resume: Resume::At(115_700) },
        state: State::Cycle,
    }
}

fn five(change: impl Fn(&mut Notice)) -> Message {
    let mut message = notice();
    change(&mut message);
    Message::Five(message)
}

fn six(change: impl Fn(&mut Quote)) -> Message {
    let mut message = quote();
    change(&mut message);
    Message::Six(message)
}

fn twelve(change: impl Fn(&mut Prices)) -> Message {
    let mut message = prices();
    change(&mut message);
    Message::Twelve(message)
}

fn nineteen(change: impl Fn(&mut Halt)) -> Message {
    let mut message = halt();
    change(&mut message);
    Message::Nineteen(message)
}

fn keeps(message: Message) {
    let mut buffer = [0xEE; 1100];
    let length = write(&message, &mut buffer).unwrap_or_else(|why| panic!("{why:?}: {message:?}"));
    assert_eq!(read(&buffer), Answer::Accepted { length, message });
    assert!(buffer[length..].iter().all(|&byte| byte == 0xEE));
    let mut exact = vec![0xDD; length];
    assert_eq!(write(&message, &mut exact), Ok(length));
    assert_eq!(exact, buffer[..length]);
    for short in [0, 1, 13, length - 1] {
        let mut buffer = vec![0xEE; short];
        assert_eq!(write(&message, &mut buffer).map_err(|why| why.number()), Err(15));
        assert!(buffer.iter().all(|&byte| byte == 0xEE));
    }
}

fn breaks(message: Message) {
    for size in [0, 13, 374, 1100] {
        let mut buffer = vec![0xEE; size];
        assert_eq!(write(&message, &mut buffer).map_err(|why| why.number()), Err(14), "{message:?}");
        assert!(buffer.iter().all(|&byte| byte == 0xEE));
    }
}

#[test]
fn known_bytes() {
    let mut buffer = [0; 26];
    let notice = Notice { number: 1, category: 9, text_length: 0, text: [0; 60] };
    assert_eq!(write(&Message::Five(notice), &mut buffer), Ok(14));
    assert_eq!(buffer[..14], hex(NOTICE));
    let event = Event::Halted { at: 100_500, resume: Resume::Open };
    let halt = Halt { number: 1, code: *b"1234  ", event, state: State::AtOnce };
    assert_eq!(write(&Message::Nineteen(halt), &mut buffer), Ok(26));
    assert_eq!(buffer[..], hex(HALT));
}

#[test]
fn notices() {
    keeps(five(|_| {}));
    for category in 0..=255 {
        let message = five(|notice| notice.category = category);
        if [0, 9, 90, 99].contains(&category) {
            keeps(message);
        } else {
            breaks(message);
        }
    }
    keeps(five(|notice| notice.number = 0));
    keeps(five(|notice| notice.number = 99_999_999));
    keeps(five(|notice| (notice.text_length, notice.text) = (60, [0xFF; 60])));
    keeps(five(|notice| (notice.text_length, notice.text) = (0, [0; 60])));
    breaks(five(|notice| notice.number = 100_000_000));
    breaks(five(|notice| notice.text_length = 61));
    breaks(five(|notice| notice.text_length = usize::MAX));
    breaks(five(|notice| notice.text_length = 4));
    breaks(five(|notice| notice.text[59] = 1));
}

#[test]
fn quotes() {
    keeps(six(|_| {}));
    keeps(six(|quote| (quote.code, quote.time) = (*b"000000", 999_999_999_999)));
    keeps(six(|quote| quote.time = 0));
    keeps(six(|quote| quote.time = 235_959_999_999));
    keeps(six(|quote| (quote.reveal, quote.pairs) = (0x00, [Pair::default(); 11])));
    keeps(six(|quote| (quote.reveal, quote.pairs) = (0xDA, [Pair { price: Price::MAX, quantity: Quantity::MAX }; 11])));
    breaks(six(|quote| quote.number = 100_000_000));
    breaks(six(|quote| quote.code = *b"000000"));
    breaks(six(|quote| quote.code[5] = 31));
    breaks(six(|quote| quote.code[0] = 127));
    for time in [240_000_000_000, 6_000_000_000, 60_000_000, 999_999_999_999, 1_000_000_000_000, u64::MAX] {
        breaks(six(|quote| quote.time = time));
    }
    for reveal in [0x60, 0x70, 0x0C, 0x0E, 0xFF, 0xA0, 0x22, 0x92, 0x81, 0x01] {
        breaks(six(|quote| quote.reveal = reveal)); // too many levels, or pairs left over
    }
    keeps(six(|quote| quote.reveal = 0xB2)); // one more, of price 0 and quantity 0
    breaks(six(|quote| quote.total = Quantity(100_000_000)));
    breaks(six(|quote| quote.pairs[0].price = Price(1_000_000_000)));
    breaks(six(|quote| quote.pairs[3].quantity = Quantity(100_000_000)));
    breaks(six(|quote| quote.pairs[4].price = Price(1)));
    breaks(six(|quote| quote.pairs[10].quantity = Quantity(1)));
}

#[test]
fn quotes_of_the_trade_alone() {
    let only = |reveal: u8, sent: &[Pair]| {
        six(|quote| {
            quote.reveal = reveal;
            quote.pairs = [Pair::default(); 11];
            quote.pairs[..sent.len()].copy_from_slice(sent);
        })
    };
    let pair = Pair { price: Price(995_000), quantity: Quantity(250) };
    keeps(only(0x01, &[]));
    keeps(only(0x81, &[pair]));
    keeps(only(0x81, &[])); // of price 0 and quantity 0
    let last = |reveal| {
        six(|quote| {
            (quote.code, quote.time, quote.reveal) = (*b"000000", 999_999_999_999, reveal);
            quote.pairs = [Pair::default(); 11];
        })
    };
    keeps(last(0x01));
    keeps(last(0x81));
    breaks(last(0x03));
    // Pairs left over: a trade without bit 7, a level behind the trade, one at the end.
    breaks(only(0x01, &[pair]));
    breaks(only(0x81, &[pair, pair]));
    breaks(only(0x81, &[pair, Pair::default(), pair]));
    // A level count above 0, with its pairs and with pairs of zeros; the same with bit 0 clear is right.
    for reveal in [0x11, 0x03, 0x13, 0x51, 0x0B, 0x5B, 0x91, 0x83, 0xA3, 0xD1, 0x8B, 0xDB] {
        let pairs = [pair; 11];
        let many = usize::from((reveal >> 7) + (reveal >> 4 & 7) + (reveal >> 1 & 7));
        breaks(only(reveal, &pairs[..many]));
        breaks(only(reveal, &[]));
        keeps(only(reveal & 0xFE, &pairs[..many]));
    }
    breaks(six(|quote| quote.reveal = 0xA3));
    for reveal in [0x61, 0x71, 0x0D, 0x0F, 0xFF] {
        breaks(only(reveal, &[]));
    }
}

#[test]
fn tables() {
    keeps(twelve(|_| {}));
    keeps(twelve(|prices| prices.slots[1].time = 999_999_999_999));
    keeps(twelve(|prices| prices.count = 10));
    breaks(twelve(|prices| prices.number = 100_000_000));
    for count in [0, 1, 11, usize::MAX] {
        breaks(twelve(|prices| prices.count = count));
    }
    breaks(twelve(|prices| prices.slots[0].code[2] = 0));
    for time in [240_000_000_000, 999_999_999_998, u64::MAX] {
        breaks(twelve(|prices| prices.slots[0].time = time));
    }
    breaks(twelve(|prices| prices.slots[0].opening = Price(1_000_000_000)));
    breaks(twelve(|prices| prices.slots[0].highest = Price(u32::MAX)));
    breaks(twelve(|prices| prices.slots[0].lowest = Price(1_000_000_000)));
    breaks(twelve(|prices| prices.slots[1].last = Price(1_000_000_000)));
    breaks(twelve(|prices| prices.slots[1].total = Quantity(100_000_000)));
    breaks(twelve(|prices| prices.slots[2].code = *b"000000"));
    breaks(twelve(|prices| prices.slots[9].lowest = Price(1)));
    breaks(twelve(|prices| prices.slots[9].total = Quantity(1)));
    breaks(twelve(|prices| prices.slots[9].time = 1));
    breaks(twelve(|prices| prices.slots[9].time = 999_999_999_999));
}

#[test]
fn halts() {
    let at = |at, resume| Event::Halted { at, resume };
    keeps(nineteen(|_| {}));
    keeps(nineteen(|halt| halt.code = *b"000000"));
    keeps(nineteen(|halt| halt.event = at(0, Resume::Open)));
    keeps(nineteen(|halt| (halt.code, halt.event) = (*b"000042", Event::RoundEnd { records: 42 })));
    keeps(nineteen(|halt| (halt.code, halt.event) = (*b"000000", Event::RoundEnd { records: 0 })));
    breaks(nineteen(|halt| (halt.code, halt.event) = (*b"000042", Event::RoundEnd { records: 41 })));
    breaks(nineteen(|halt| (halt.code, halt.event) = (*b"42    ", Event::RoundEnd { records: 42 })));
    breaks(nineteen(|halt| (halt.code, halt.event) = (*b"000000", Event::RoundEnd { records: 1_000_000 })));
    breaks(nineteen(|halt| halt.number = 100_000_000));
    breaks(nineteen(|halt| halt.code[0] = 0));
    breaks(nineteen(|halt| halt.event = at(999_999, Resume::Open)));
    breaks(nineteen(|halt| halt.event = at(999_999, Resume::At(115_700))));
    breaks(nineteen(|halt| halt.event = at(91_200, Resume::At(999_999))));
    breaks(nineteen(|halt| halt.event = at(91_260, Resume::Open)));
    breaks(nineteen(|halt| halt.event = at(91_200, Resume::At(1_000_000))));
    breaks(nineteen(|halt| halt.event = at(u32::MAX, Resume::Open)));
}
