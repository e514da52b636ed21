//! The edges of docs/RULES.md, in their order. Those of the ledger are in `ledger.rs`.

use crate::build::*;
use second::five::Notice;
use second::nineteen::{Event, Halt, Resume, State};
use second::reading::read_at;
use second::{read, Answer, Message};

fn number(text: &str) -> u8 {
    read(&hex(text)).number()
}

#[test]
fn few_bytes() {
    assert_eq!(number(""), 2);
    assert_eq!(number("1B 0A"), 2);
    assert_eq!(number("1B 0A 14"), 3);
    assert_eq!(number("41"), 1);
    assert_eq!(read_at(b"AB", 2).number(), 2);
    assert_eq!(read_at(b"AB", 3).number(), 2);
    assert_eq!(read_at(b"AB", usize::MAX).number(), 2);
}

#[test]
fn the_notice() {
    let notice = Notice { number: 1, category: 9, text_length: 0, text: [0; 60] };
    assert_eq!(read(&hex(NOTICE)), Answer::Accepted { length: 14, message: Message::Five(notice) });
    assert_eq!(number("1B 00 14 01 05 01 00 00 00 01 09 18 0D 0A"), 5);
    assert_eq!(number("1B 00 14 01 05 01 00 00 00 01 09 19 0D 0B"), 4);
    assert_eq!(number("1B 00 14 01 05 01 00 00 00 01 09 19 0D"), 2);
}

#[test]
fn the_halt() {
    let halt = Halt {
        number: 1,
        code: *b"1234  ",
        event: Event::Halted { at: 100_500, resume: Resume::Open },
        state: State::AtOnce,
    };
    assert_eq!(read(&hex(HALT)), Answer::Accepted { length: 26, message: Message::Nineteen(halt) });
}

#[test]
fn reveal_bytes() {
    for (reveal, trade, bids, asks, length) in
        [(0xA2, true, 2, 1, 68), (0xDA, true, 5, 5, 131), (0x00, false, 0, 0, 32)]
    {
        let pairs = usize::from(trade) + bids + asks;
        let answer = read(&frame(SIX, &quote(reveal, pairs)));
        assert_eq!((answer.number(), answer.length()), (0, Some(length)));
        let Some(Message::Six(quote)) = answer.message() else { panic!("no quote") };
        assert_eq!(quote.trade().is_some(), trade);
        assert_eq!((quote.bids().unwrap().len(), quote.asks().unwrap().len()), (bids, asks));
    }
    assert_eq!(read(&frame(SIX, &quote(0x60, 6))).number(), 10);
}

#[test]
fn reveal_bytes_of_the_trade_alone() {
    for (reveal, trade, length) in [(0x81, true, 41), (0x01, false, 32)] {
        let answer = read(&frame(SIX, &quote(reveal, usize::from(trade))));
        assert_eq!((answer.number(), answer.length()), (0, Some(length)));
        let Some(Message::Six(quote)) = answer.message() else { panic!("no quote") };
        assert_eq!((quote.trade().is_some(), quote.bids(), quote.asks()), (trade, None, None));
    }
    // Not shown is not none.
    for (reveal, pairs) in [(0x80, 1), (0x00, 0)] {
        let answer = read(&frame(SIX, &quote(reveal, pairs)));
        let Some(Message::Six(quote)) = answer.message() else { panic!("no quote") };
        assert_eq!((quote.bids(), quote.asks()), (Some(&[][..]), Some(&[][..])));
    }
    assert_eq!(read(&frame(SIX, &quote(0xA3, 4))).number(), 10);
}

#[test]
fn lengths() {
    assert_eq!(read(&frame(FIVE, &[])).number(), 3); // 13
    assert_eq!(read(&frame(FIVE, &[0; 1012])).number(), 3); // 1,025
    assert_eq!(read(&frame(FIVE, &[0])).number(), 0); // 14
    assert_eq!(
        read(&frame(FIVE, &[0; 1011])),
        Answer::Refused { length: 1024, why: second::Refusal::Length, place: None }
    );
    assert_eq!(["1B0013", "1B1025", "1B0014", "1B1024"].map(number), [3, 3, 2, 2]);
}
