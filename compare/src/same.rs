//! What the second program's answers and messages are in the library's forms, and the texts of differences.

use std::fmt::Debug;

use second::{board, derivatives, five, nineteen, six, twelve};

use crate::exchange::Told;

/// An outcome of a reading: answer, format and length in one number, and above them an accepted frame's number or the place of a
/// refused one's bad half.
pub fn outcome<M: Told>(answer: &second::Answer<M>) -> u64 {
    moved(answer, answer.length().unwrap_or(0))
}

/// The same of a move, which has the bytes that it goes past for a length.
pub fn moved<M: Told>(answer: &second::Answer<M>, bytes: usize) -> u64 {
    match answer.message() {
        Some(message) => packed(0, message.format(), bytes, message.number()),
        None => packed(answer.number(), 0, bytes, above(answer.place())),
    }
}

/// What a reading of one format gives.
pub fn reading(answer: &second::Answer, format: u8) -> Result<trivsome::Frame, trivsome::NotRead> {
    match *answer {
        second::Answer::Accepted { length, ref message } => {
            let frame = trivsome::Frame { format: message.format(), seq: message.number(), length };
            if frame.format == format {
                Ok(frame)
            } else {
                Err(trivsome::NotRead::OtherFormat(frame))
            }
        }
        second::Answer::Refused { length, .. } => {
            Err(trivsome::NotRead::Refused { number: answer.number(), length, bad_half: bad_half(answer) })
        }
        second::Answer::NoFrame { .. } => {
            Err(trivsome::NotRead::NoFrame { number: answer.number(), bad_half: bad_half(answer) })
        }
    }
}

/// The place of a refusal's bad half, as the package has it.
fn bad_half(answer: &second::Answer) -> Option<u16> {
    answer.place().map(|place| place as u16)
}

pub fn packed(answer: u8, format: u8, length: usize, above: u32) -> u64 {
    u64::from(answer) | u64::from(format) << 8 | (length as u64) << 16 | u64::from(above) << 32
}

/// What stands above a refusal's length: the place of its bad half and one, or 0 where it tells none.
pub fn above(place: Option<usize>) -> u32 {
    place.map_or(0, |place| place as u32 + 1)
}

/// An outcome in words.
pub fn told(outcome: u64) -> String {
    let (answer, format, length, above) = (outcome & 255, outcome >> 8 & 255, outcome >> 16 & 65_535, outcome >> 32);
    let above = match (answer, above) {
        (0, seq) => format!("number {seq}"),
        (_, 0) => "no bad half".into(),
        (_, half) => format!("bad half {}", half - 1),
    };
    format!("answer {answer}, format {format}, length {length}, {above}")
}

/// The notice, if its text has 60 bytes at most.
pub fn notice(notice: &five::Notice) -> Option<trivsome::Notice> {
    trivsome::Notice::new(notice.number, notice.category, notice.text.get(..notice.text_length)?)
}

fn pair(pair: &six::Pair) -> trivsome::Pair {
    trivsome::Pair { price: trivsome::Price(pair.price.0), quantity: trivsome::Quantity(pair.quantity.0) }
}

/// The quote. The pairs that the second program keeps behind those in use go to the places that are not in use, in order.
pub fn quote(quote: &six::Quote) -> trivsome::Quote {
    let reveal = six::Reveal::of(quote.reveal);
    let (bids, asks) = (reveal.bids.min(5), reveal.asks.min(5));
    let trade = usize::from(reveal.trade);
    let mut used = quote.pairs.iter().map(pair);
    let mut unused = quote.pairs[trade + bids + asks..].iter().map(pair);
    let mut next = |is_used: bool| if is_used { used.next() } else { unused.next() }.unwrap_or_default();
    let first = next(reveal.trade);
    let mut side = |count: usize| std::array::from_fn(|level| next(level < count));
    trivsome::Quote {
        time: quote.time,
        seq: quote.number,
        total: trivsome::Quantity(quote.total.0),
        trade: first,
        bids: side(bids),
        asks: side(asks),
        code: trivsome::Code(quote.code),
        reveal: quote.reveal,
        limit: quote.limit,
        status: quote.status,
    }
}

/// The levels of a side, if they are shown.
pub fn levels(side: Option<&[six::Pair]>) -> Option<Vec<trivsome::Pair>> {
    side.map(|levels| levels.iter().map(pair).collect())
}

/// The row of a board. A last trade that there is not is zeros.
pub fn row(row: &board::Row) -> trivsome::Row {
    trivsome::Row {
        time: row.time,
        total: trivsome::Quantity(row.total.0),
        trade: row.trade.as_ref().map(pair).unwrap_or_default(),
        bids: row.bids.levels.map(|level| pair(&level)),
        asks: row.asks.levels.map(|level| pair(&level)),
        code: trivsome::Code(row.code),
        reveal: shown(row),
        limit: row.limit,
        status: row.status,
    }
}

/// Which pairs a row has, in the bits of a reveal byte.
pub fn shown(row: &board::Row) -> u8 {
    let count = |side: &board::Side| side.count as u8 & 7;
    u8::from(row.trade.is_some()) << 7 | count(&row.bids) << 4 | count(&row.asks) << 1
}

pub fn prices(prices: &twelve::Prices) -> trivsome::Prices {
    trivsome::Prices {
        seq: prices.number,
        count: prices.count.min(255) as u8,
        codes: prices.slots.map(|slot| trivsome::Code(slot.code)),
        amounts: prices.slots.map(|slot| trivsome::Amounts {
            opening: trivsome::Price(slot.opening.0),
            highest: trivsome::Price(slot.highest.0),
            lowest: trivsome::Price(slot.lowest.0),
            last: trivsome::Price(slot.last.0),
            total: trivsome::Quantity(slot.total.0),
        }),
        times: prices.slots.map(|slot| slot.time),
    }
}

pub fn halt(halt: &nineteen::Halt) -> trivsome::Halt {
    let event = match halt.event {
        nineteen::Event::RoundEnd { records } => trivsome::Event::RoundEnd(records),
        nineteen::Event::Halted { at, resume: nineteen::Resume::Open } => {
            trivsome::Event::Halted(at, trivsome::Resume::Open)
        }
        nineteen::Event::Halted { at, resume: nineteen::Resume::At(resumed) } => {
            trivsome::Event::Halted(at, trivsome::Resume::At(resumed))
        }
    };
    let state = match halt.state {
        nineteen::State::Cycle => trivsome::Sending::Cycle,
        nineteen::State::AtOnce => trivsome::Sending::Instant,
    };
    trivsome::Halt { seq: halt.number, code: trivsome::Code(halt.code), event, state }
}

/// The four numbers of a halt's event and state. A resume at 999999, which they cannot tell from an open one, is another number
/// that is no time of day.
pub fn event(halt: &nineteen::Halt) -> [u32; 4] {
    let state = match halt.state {
        nineteen::State::Cycle => 67,
        nineteen::State::AtOnce => 73,
    };
    match halt.event {
        nineteen::Event::RoundEnd { records } => [0, records, 0, state],
        nineteen::Event::Halted { at, resume: nineteen::Resume::Open } => [1, at, 999_999, state],
        nineteen::Event::Halted { at, resume: nineteen::Resume::At(999_999) } => [1, at, 1_999_999, state],
        nineteen::Event::Halted { at, resume: nineteen::Resume::At(resumed) } => [1, at, resumed, state],
    }
}

/// The index value. A contract's length that no byte holds is the largest that one does.
pub fn index(message: &derivatives::Message) -> trivsome::Index {
    trivsome::Index {
        seq: message.seq,
        sent: message.sent,
        time: message.time,
        value: trivsome::Thousandths(message.value.0),
        market: message.market,
        kind: message.kind.byte(),
        length: message.contract_length.min(255) as u8,
        status: message.status,
        contract: message.contract,
    }
}

/// A difference: what is spoken of, and what each side says of it.
pub fn differ(what: &str, proved: &impl Debug, second: &impl Debug) -> String {
    let (proved, second) = (format!("{proved:?}"), format!("{second:?}"));
    let same = proved.bytes().zip(second.bytes()).take_while(|(one, other)| one == other).count();
    let mut text = format!("{what} differs\n  proved: {proved}\n  second: {second}");
    if same > 80 {
        let before: String = proved.chars().take(same).collect();
        text += &format!("\n  they part behind: {}", before.split_at_checked(same - 60).unwrap_or_default().1);
    }
    text
}

pub fn hex(bytes: &[u8]) -> String {
    let bytes: Vec<String> = bytes.iter().map(|byte| format!("{byte:02X}")).collect();
    bytes.join(" ")
}
