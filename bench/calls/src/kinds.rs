//! The messages that are timed, by kind, and their frames in one buffer.

use second::five::Notice;
use second::nineteen::{Event, Halt, Resume, State};
use second::random::Random;
use second::six::{Pair, Quote, Reveal, MOST_PAIRS};
use second::twelve::{Prices, Slot};
use second::units::{Code, Price, Quantity};
use second::Message;

/// How many different messages of a kind there are.
pub const MANY: usize = 128;

/// Messages of one kind, and their frames one behind the other with the places at which they begin.
pub struct Kind {
    pub name: &'static str,
    pub messages: Vec<Message>,
    pub line: Vec<u8>,
    pub places: Vec<usize>,
}

impl Kind {
    fn new(name: &'static str, seed: u64, message: impl Fn(&mut Random, u32) -> Message) -> Result<Kind, String> {
        let mut random = Random::new(seed);
        let messages: Vec<Message> = (1..=MANY as u32).map(|number| message(&mut random, number)).collect();
        let (mut line, mut places) = (Vec::new(), Vec::new());
        for message in &messages {
            let mut buffer = [0; 400];
            let length = second::write(message, &mut buffer).map_err(|why| format!("{name}: {why:?}: {message:?}"))?;
            places.push(line.len());
            line.extend(&buffer[..length]);
        }
        Ok(Kind { name, messages, line, places })
    }

    /// Bytes a frame, where frames differ in length their mean.
    pub fn bytes(&self) -> f64 {
        self.line.len() as f64 / self.places.len() as f64
    }
}

pub const TYPICAL: &str = "six, 9 pairs";
pub const SLOTS: &str = "twelve, 10 slots";

/// All kinds.
pub fn kinds() -> Result<Vec<Kind>, String> {
    Ok(vec![
        Kind::new("five, text of 8", 1, |random, number| notice(random, number, 8))?,
        Kind::new("five, text of 60", 2, |random, number| notice(random, number, 60))?,
        Kind::new("six, no pairs", 3, |random, number| quote(random, number, 0x00))?,
        Kind::new(TYPICAL, 4, |random, number| quote(random, number, 0xC8))?,
        Kind::new("six, 11 pairs", 5, |random, number| quote(random, number, 0xDA))?,
        Kind::new("six, any pairs", 6, |random, number| {
            let reveal = any_pairs(random);
            quote(random, number, reveal)
        })?,
        Kind::new("six, the trade alone", 13, |random, number| quote(random, number, TRADE_ALONE))?,
        Kind::new(SLOTS, 7, prices)?,
        Kind::new("nineteen", 8, halt)?,
    ])
}

/// The reveal byte of a trade whose levels are not shown.
pub const TRADE_ALONE: u8 = 0x81;

/// A reveal byte, of any trade and any levels that are shown.
pub fn any_pairs(random: &mut Random) -> u8 {
    (random.below(2) << 7 | random.below(6) << 4 | random.below(6) << 1) as u8
}

pub fn code(random: &mut Random) -> Code {
    let mut code = *b"      ";
    code[..4].fill_with(|| b'0' + random.below(10) as u8);
    code
}

/// A time of a trading day, HHMMSS.
fn short_time(random: &mut Random) -> u64 {
    (9 + random.below(4)) * 10_000 + random.below(60) * 100 + random.below(60)
}

fn long_time(random: &mut Random) -> u64 {
    short_time(random) * 1_000_000 + random.below(1_000_000)
}

fn price(random: &mut Random) -> Price {
    Price(random.below(1_000_000_000) as u32)
}

fn quantity(random: &mut Random) -> Quantity {
    Quantity(random.below(100_000_000) as u32)
}

fn notice(random: &mut Random, number: u32, length: usize) -> Message {
    let mut text = [0; 60];
    text[..length].fill_with(|| 32 + random.below(95) as u8);
    Message::Five(Notice { number, category: random.pick(&[0, 9, 90, 99]), text_length: length, text })
}

fn quote(random: &mut Random, number: u32, reveal: u8) -> Message {
    Message::Six(any_quote(random, number, reveal))
}

/// A quote with the pairs of a reveal byte.
pub fn any_quote(random: &mut Random, number: u32, reveal: u8) -> Quote {
    let mut pairs = [Pair::default(); MOST_PAIRS];
    for pair in &mut pairs[..Reveal::of(reveal).pairs()] {
        *pair = Pair { price: price(random), quantity: quantity(random) };
    }
    let (code, time, total) = (code(random), long_time(random), quantity(random));
    Quote { number, code, time, reveal, limit: 0, status: 0x10, total, pairs }
}

fn prices(random: &mut Random, number: u32) -> Message {
    let mut slots = [Slot::UNUSED; 10];
    slots.fill_with(|| Slot {
        code: code(random),
        opening: price(random),
        highest: price(random),
        lowest: price(random),
        last: price(random),
        total: quantity(random),
        time: long_time(random),
    });
    Message::Twelve(Prices { number, count: 10, slots })
}

fn halt(random: &mut Random, number: u32) -> Message {
    let resume = if random.one_in(2) { Resume::Open } else { Resume::At(short_time(random) as u32) };
    let event = Event::Halted { at: short_time(random) as u32, resume };
    let state = if random.one_in(2) { State::Cycle } else { State::AtOnce };
    Message::Nineteen(Halt { number, code: code(random), event, state })
}
