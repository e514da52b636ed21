//! Faults put into messages that keep the rules, one for each kind of field: a message with any of them answers 14.

use crate::five::Notice;
use crate::nineteen::{Event, Halt, Resume};
use crate::random::Random;
use crate::reading::Message;
use crate::six::{Pair, Quote, Reveal};
use crate::twelve::{Prices, Slot};
use crate::units::{Code, Price, Quantity, CODE_ZERO};

/// Puts one kind of fault into a message, or tells that it has no place for it.
pub(crate) type Put<T> = fn(&mut T, &mut Random) -> bool;

const FIVE: [(&str, Put<Notice>); 3] = [
    ("five: number", |notice, random| put(&mut notice.number, above(random, 99_999_999))),
    ("five: category", |notice, random| put(&mut notice.category, random.pick(&[1, 8, 10, 89, 91, 98, 100, 255]))),
    ("five: text over 60", |notice, random| put(&mut notice.text_length, random.pick(&[61, 62, 64, 255]))),
];

const SIX: [(&str, Put<Quote>); 11] = [
    ("six: number", |quote, random| put(&mut quote.number, above(random, 99_999_999))),
    ("six: code", |quote, random| spoil_code(&mut quote.code, random)),
    ("six: time", |quote, random| put(&mut quote.time, wrong_time(random))),
    ("six: nines without the code 000000", |quote, _| {
        quote.code[5] = b'1';
        put(&mut quote.time, 999_999_999_999)
    }),
    ("six: the code 000000 without nines", |quote, random| {
        quote.code = CODE_ZERO;
        put(&mut quote.time, random.pick(&[0, 90_000_000_000, 235_959_999_999]))
    }),
    ("six: six or seven levels", |quote, random| {
        let (bids, asks) = random.pick(&[(6, 0), (7, 5), (0, 6), (5, 7), (6, 7)]);
        put(&mut quote.reveal, random.byte() & 0x80 | bids << 4 | asks << 1)
    }),
    ("six: levels where only the trade is sent", |quote, random| {
        // those that it has, or some of price 0 and quantity 0
        let levels = if quote.reveal & 0x7E == 0 { random.pick(&[0x10, 0x02, 0x12, 0x50, 0x5A]) } else { 0 };
        quote.reveal |= levels | 1;
        true
    }),
    ("six: total", |quote, random| put(&mut quote.total, Quantity(above(random, 99_999_999)))),
    ("six: price", |quote, random| {
        let used = 0..Reveal::of(quote.reveal).pairs().min(11);
        put_any(&mut quote.pairs[used], random, |pair, random| pair.price = Price(above(random, 999_999_999)))
    }),
    ("six: quantity", |quote, random| {
        let used = 0..Reveal::of(quote.reveal).pairs().min(11);
        put_any(&mut quote.pairs[used], random, |pair, random| pair.quantity = Quantity(above(random, 99_999_999)))
    }),
    ("six: unused pair", |quote, random| {
        let unused = Reveal::of(quote.reveal).pairs().min(11)..;
        put_any(&mut quote.pairs[unused], random, |pair, random| {
            let any = 1 + random.amount(99_999_998) as u32;
            let (price, quantity) = random.pick(&[(any, 0), (0, any), (any, any)]);
            *pair = Pair { price: Price(price), quantity: Quantity(quantity) };
        })
    }),
];

const TWELVE: [(&str, Put<Prices>); 10] = [
    ("twelve: number", |prices, random| put(&mut prices.number, above(random, 99_999_999))),
    ("twelve: count 0", |prices, _| put(&mut prices.count, 0)),
    ("twelve: count above 10", |prices, random| put(&mut prices.count, random.pick(&[11, 12, 99, 100, 255]))),
    ("twelve: code", |prices, random| {
        put_any(counted(prices), random, |slot, random| {
            spoil_code(&mut slot.code, random);
        })
    }),
    ("twelve: price", |prices, random| {
        put_any(counted(prices), random, |slot, random| {
            let wrong = Price(above(random, 999_999_999));
            match random.below(4) {
                0 => slot.opening = wrong,
                1 => slot.highest = wrong,
                2 => slot.lowest = wrong,
                _ => slot.last = wrong,
            }
        })
    }),
    ("twelve: total", |prices, random| {
        put_any(counted(prices), random, |slot, random| slot.total = Quantity(above(random, 99_999_999)))
    }),
    ("twelve: time", |prices, random| put_any(counted(prices), random, |slot, random| slot.time = wrong_time(random))),
    ("twelve: code of an unused slot", |prices, random| {
        put_any(unused(prices), random, |slot, random| slot.code[random.within(0..=5)] = random.pick(b"0!\0\x1F"))
    }),
    ("twelve: amount of an unused slot", |prices, random| {
        put_any(unused(prices), random, |slot, random| {
            let any = 1 + random.amount(99_999_998) as u32;
            match random.below(5) {
                0 => slot.opening = Price(any),
                1 => slot.highest = Price(any),
                2 => slot.lowest = Price(any),
                3 => slot.last = Price(any),
                _ => slot.total = Quantity(any),
            }
        })
    }),
    ("twelve: time of an unused slot", |prices, random| {
        put_any(unused(prices), random, |slot, random| slot.time = random.pick(&[1, 90_000_000_000, 999_999_999_999]))
    }),
];

const NINETEEN: [(&str, Put<Halt>); 7] = [
    ("nineteen: number", |halt, random| put(&mut halt.number, above(random, 99_999_999))),
    ("nineteen: code", |halt, random| spoil_code(&mut halt.code, random)),
    ("nineteen: another count of records", |halt, random| {
        halt.code = *b"000123";
        put(&mut halt.event, Event::RoundEnd { records: random.pick(&[0, 122, 124, 321, 1_000_123, u32::MAX]) })
    }),
    ("nineteen: a round's end whose code is no number", |halt, random| {
        halt.code = *b"000123";
        halt.code[random.within(0..=5)] = random.pick(b"/: A~");
        put(&mut halt.event, Event::RoundEnd { records: random.pick(&[0, 23, 100, 103, 120, 123]) })
    }),
    ("nineteen: halt time", |halt, random| {
        let at = if random.one_in(4) { 999_999 } else { wrong_short(random) };
        let resume = random.pick(&[Resume::Open, Resume::At(100_500)]);
        put(&mut halt.event, Event::Halted { at, resume })
    }),
    ("nineteen: resume time", |halt, random| {
        let resume = Resume::At(wrong_short(random));
        put(&mut halt.event, Event::Halted { at: 100_500, resume })
    }),
    ("nineteen: a resume at 999999", |halt, random| {
        let at = random.pick(&[0, 100_500, 235_959]);
        put(&mut halt.event, Event::Halted { at, resume: Resume::At(999_999) })
    }),
];

/// The names of all kinds of fault.
pub fn names() -> Vec<&'static str> {
    let mut names: Vec<_> = FIVE.iter().map(|kind| kind.0).collect();
    names.extend(SIX.iter().map(|kind| kind.0));
    names.extend(TWELVE.iter().map(|kind| kind.0));
    names.extend(NINETEEN.iter().map(|kind| kind.0));
    names
}

/// Puts a fault of any kind into a message, and gives the kind's name.
pub fn spoil(message: &mut Message, random: &mut Random) -> &'static str {
    match message {
        Message::Five(notice) => spoil_by(&FIVE, notice, random),
        Message::Six(quote) => spoil_by(&SIX, quote, random),
        Message::Twelve(prices) => spoil_by(&TWELVE, prices, random),
        Message::Nineteen(halt) => spoil_by(&NINETEEN, halt, random),
    }
}

/// The number of a message always has a place for a fault, so this ends.
pub(crate) fn spoil_by<T>(kinds: &[(&'static str, Put<T>)], message: &mut T, random: &mut Random) -> &'static str {
    loop {
        let (name, put) = random.pick(kinds);
        if put(message, random) {
            return name;
        }
    }
}

pub(crate) fn put<T>(field: &mut T, wrong: T) -> bool {
    *field = wrong;
    true
}

/// The same at any of some places, if there are any.
fn put_any<T>(places: &mut [T], random: &mut Random, put: fn(&mut T, &mut Random)) -> bool {
    if places.is_empty() {
        return false;
    }
    let place = random.within(0..=places.len() - 1);
    put(&mut places[place], random);
    true
}

fn counted(prices: &mut Prices) -> &mut [Slot] {
    &mut prices.slots[..prices.count.min(10)]
}

fn unused(prices: &mut Prices) -> &mut [Slot] {
    &mut prices.slots[prices.count.min(10)..]
}

/// A number above the greatest one that is allowed.
pub(crate) fn above(random: &mut Random, greatest: u32) -> u32 {
    let any = greatest + 1 + random.below(u64::from(u32::MAX - greatest)) as u32;
    random.pick(&[greatest + 1, u32::MAX, any])
}

fn spoil_code(code: &mut Code, random: &mut Random) -> bool {
    code[random.within(0..=5)] = random.pick(&[0, 13, 27, 31, 127, 128, 255]);
    true
}

/// HHMMSS that is neither a time of day nor 999999.
fn wrong_short(random: &mut Random) -> u32 {
    let any = above(random, 999_999);
    random.pick(&[240_000, 236_000, 235_960, 126_000, 60, 999_998, 1_000_000, 1_100_500, u32::MAX, any])
}

/// HHMMSSffffff that is neither a time of day nor twelve nines.
fn wrong_time(random: &mut Random) -> u64 {
    let long = [1_000_000_000_000, 1_090_000_000_000, 999_999_999_998, 999_999_000_000, u64::MAX, 1 << 63];
    let any = u64::from(wrong_short(random)) * 1_000_000 + random.below(999_999);
    if random.one_in(2) {
        random.pick(&long)
    } else {
        any
    }
}
