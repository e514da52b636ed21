//! The messages of a closed line: a JSON object a line for each accepted frame, without blanks outside strings.

use std::fmt::{self, Display};
use std::io::{self, Read, Write};

use crate::exchange::{Exchange, Shown, Stock};
use crate::nineteen::{Event, Halt, Resume, State};
use crate::pieces::each_move_of;
use crate::reading::Message;
use crate::six::{Pair, Quote};
use crate::twelve::{Prices, Slot};
use crate::units::Price;
use crate::{five::Notice, times};

/// Reads a line of the stock exchange to its end and writes its messages.
pub fn tell<R: Read, W: Write>(input: R, output: W) -> io::Result<()> {
    tell_of::<Stock, R, W>(input, output)
}

/// The same for a line of any exchange.
pub fn tell_of<E: Exchange, R: Read, W: Write>(input: R, mut output: W) -> io::Result<()> {
    each_move_of::<E, _, _>(input, |at, answer, _| match answer.message() {
        Some(message) => writeln!(output, "{}", Object { at, message }),
        None => Ok(()),
    })?;
    output.flush()
}

/// A message at its place, to be shown as a JSON object.
pub struct Object<'a, M = Message> {
    pub at: u64,
    pub message: &'a M,
}

impl<M: Shown> Display for Object<'_, M> {
    fn fmt(&self, f: &mut fmt::Formatter) -> fmt::Result {
        self.message.object(self.at, f)
    }
}

impl Shown for Message {
    fn listed(&self) -> (impl Display, u32) {
        (self.format(), self.number())
    }

    fn object(&self, at: u64, f: &mut fmt::Formatter) -> fmt::Result {
        write!(f, "{{\"at\":{at},\"format\":{},\"seq\":{},", self.format(), self.number())?;
        match self {
            Message::Five(notice) => notice_keys(f, notice),
            Message::Six(quote) => quote_keys(f, quote),
            Message::Twelve(prices) => prices_keys(f, prices),
            Message::Nineteen(halt) => halt_keys(f, halt),
        }?;
        f.write_str("}")
    }
}

fn notice_keys(f: &mut fmt::Formatter, notice: &Notice) -> fmt::Result {
    write!(f, "\"category\":\"{:02}\",\"text\":\"", notice.category)?;
    for byte in notice.text() {
        write!(f, "{byte:02x}")?;
    }
    f.write_str("\"")
}

fn quote_keys(f: &mut fmt::Formatter, quote: &Quote) -> fmt::Result {
    write!(f, "\"code\":{},\"time\":{},", Text(&quote.code), Long(quote.time))?;
    if quote.ends_the_day() {
        f.write_str("\"last\":true,")?;
    }
    write!(f, "\"reveal\":{},\"limit\":{},\"status\":{},", quote.reveal, quote.limit, quote.status)?;
    write!(f, "\"total\":{},", quote.total.0)?;
    pairs_keys(f, quote.trade(), quote.bids(), quote.asks())
}

/// A trade, and sides that are `None` where they are not shown.
pub(crate) fn pairs_keys(
    f: &mut fmt::Formatter,
    trade: Option<Pair>,
    bids: Option<&[Pair]>,
    asks: Option<&[Pair]>,
) -> fmt::Result {
    f.write_str("\"trade\":")?;
    match trade {
        Some(pair) => pair_object(f, &pair),
        None => f.write_str("null"),
    }?;
    for (key, side) in [("bids", bids), ("asks", asks)] {
        write!(f, ",\"{key}\":")?;
        match side {
            Some(levels) => array(f, levels, pair_object),
            None => f.write_str("null"),
        }?;
    }
    Ok(())
}

fn pair_object(f: &mut fmt::Formatter, pair: &Pair) -> fmt::Result {
    write!(f, "{{\"price\":{},\"quantity\":{}}}", Decimals(pair.price), pair.quantity.0)
}

fn prices_keys(f: &mut fmt::Formatter, prices: &Prices) -> fmt::Result {
    write!(f, "\"count\":{},\"slots\":", prices.count)?;
    array(f, prices.counted(), slot_object)
}

fn slot_object(f: &mut fmt::Formatter, slot: &Slot) -> fmt::Result {
    write!(f, "{{\"code\":{},", Text(&slot.code))?;
    write!(f, "\"open\":{},\"high\":{},", Decimals(slot.opening), Decimals(slot.highest))?;
    write!(f, "\"low\":{},\"last\":{},", Decimals(slot.lowest), Decimals(slot.last))?;
    write!(f, "\"total\":{},\"time\":{}", slot.total.0, Long(slot.time))?;
    f.write_str(if slot.is_closing() { ",\"closing\":true}" } else { "}" })
}

fn halt_keys(f: &mut fmt::Formatter, halt: &Halt) -> fmt::Result {
    write!(f, "\"code\":{},", Text(&halt.code))?;
    match halt.event {
        Event::RoundEnd { records } => write!(f, "\"event\":\"round-end\",\"records\":{records}"),
        Event::Halted { at, resume: Resume::Open } => {
            write!(f, "\"event\":\"halt\",\"halted\":{},\"resume\":null", Short(at))
        }
        Event::Halted { at, resume: Resume::At(time) } => {
            write!(f, "\"event\":\"halt\",\"halted\":{},\"resume\":{}", Short(at), Short(time))
        }
    }?;
    let letter = match halt.state {
        State::Cycle => 'C',
        State::AtOnce => 'I',
    };
    write!(f, ",\"state\":\"{letter}\"")
}

fn array<T>(f: &mut fmt::Formatter, items: &[T], show: fn(&mut fmt::Formatter, &T) -> fmt::Result) -> fmt::Result {
    f.write_str("[")?;
    for (place, item) in items.iter().enumerate() {
        if place > 0 {
            f.write_str(",")?;
        }
        show(f, item)?;
    }
    f.write_str("]")
}

/// A code as a string, its spaces kept. Its bytes are 32 to 126.
pub(crate) struct Text<'a>(pub(crate) &'a [u8]);

impl Display for Text<'_> {
    fn fmt(&self, f: &mut fmt::Formatter) -> fmt::Result {
        f.write_str("\"")?;
        for &byte in self.0 {
            if byte == b'"' || byte == b'\\' {
                f.write_str("\\")?;
            }
            write!(f, "{}", char::from(byte))?;
        }
        f.write_str("\"")
    }
}

/// A price as a string with four decimals.
struct Decimals(Price);

impl Display for Decimals {
    fn fmt(&self, f: &mut fmt::Formatter) -> fmt::Result {
        let ten_thousandths = self.0 .0;
        write!(f, "\"{}.{:04}\"", ten_thousandths / 10_000, ten_thousandths % 10_000)
    }
}

/// HHMMSS as a string.
struct Short(u32);

impl Display for Short {
    fn fmt(&self, f: &mut fmt::Formatter) -> fmt::Result {
        write!(f, "\"{:02}:{:02}:{:02}\"", self.0 / 10_000, self.0 / 100 % 100, self.0 % 100)
    }
}

/// HHMMSSffffff as a string, or null for twelve nines; a key of its own behind it says what those mean.
pub(crate) struct Long(pub(crate) u64);

impl Display for Long {
    fn fmt(&self, f: &mut fmt::Formatter) -> fmt::Result {
        if self.0 == times::LONG_NINES {
            return f.write_str("null");
        }
        let (clock, fraction) = (self.0 / 1_000_000, self.0 % 1_000_000);
        write!(f, "\"{:02}:{:02}:{:02}.{fraction:06}\"", clock / 10_000, clock / 100 % 100, clock % 100)
    }
}
