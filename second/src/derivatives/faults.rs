//! Faults put into messages that keep the rules, one for each kind of field: a message with any of them answers 14.

use crate::derivatives::message::LONG;
use crate::derivatives::{Kind, Message};
use crate::faults::{above, put, spoil_by, Put};
use crate::random::Random;
use crate::units::Thousandths;

const FAULTS: [(&str, Put<Message>); 10] = [
    ("number", |message, random| put(&mut message.seq, above(random, 99_999_999))),
    ("transmission code", |message, random| put(&mut message.market, random.pick(b"\0\x01\x042350:A\xB1"))),
    ("header time", |message, random| put(&mut message.sent, wrong_time(random))),
    ("contract", |message, random| {
        let used = message.contract_length;
        put(&mut message.contract[random.within(0..=used - 1)], random.pick(&[0, 13, 27, 31, 127, 128, 255]))
    }),
    ("length of a contract", |message, random| {
        put(&mut message.contract_length, random.pick(&[0, 1, 2, 4, 5, 6, 7, 9, 12, 17, 255, 256]))
    }),
    ("unused place of a contract", |message, random| {
        let used = message.contract_length;
        used < LONG && put(&mut message.contract[random.within(used..=LONG - 1)], random.pick(b" 0A\x01\xFF"))
    }),
    ("a short contract as a long one", |message, _| {
        // its five places are zero, which no contract's byte is
        message.contract_length < LONG && put(&mut message.contract_length, LONG)
    }),
    ("time", |message, random| put(&mut message.time, wrong_time(random))),
    ("value", |message, random| put(&mut message.value, Thousandths(above(random, 99_999_999)))),
    ("status", |message, random| {
        let reserved = match message.kind {
            Kind::I060 => random.within(1..=7),
            Kind::I064 => random.within(3..=7),
        };
        message.status |= 1 << reserved;
        true
    }),
];

/// The names of all kinds of fault.
pub fn names() -> Vec<&'static str> {
    FAULTS.iter().map(|kind| kind.0).collect()
}

/// Puts a fault of any kind into a message that keeps the rules, and gives the kind's name.
pub fn spoil(message: &mut Message, random: &mut Random) -> &'static str {
    spoil_by(&FAULTS, message, random)
}

/// HHMMSScc that is no time of day; nines are none either.
fn wrong_time(random: &mut Random) -> u32 {
    let any = above(random, 23_595_999);
    random.pick(&[
        24_000_000,
        23_600_000,
        23_596_000,
        12_600_000,
        6_000,
        600_000,
        99_999_999,
        100_000_000,
        109_000_000,
        u32::MAX,
        any,
    ])
}
