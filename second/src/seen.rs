//! What occurs on a line: every answer of the reading and of the ledger, every place of a bad half, and what a board comes to,
//! counted, and every accepted message written back.

use std::collections::BTreeMap;
use std::fmt;

use crate::board::{self, Row};
use crate::exchange::{Exchange, Stock};
use crate::gaps::{hear, WhenFull};
use crate::halves::Halves;
use crate::ledger::{Arrival, Ledger, Refusal};
use crate::outline::HEAD;
use crate::reading::{self, Answer, Message};
use crate::six::{Pair, Quote, Reveal, MOST_LEVELS, REVEAL};
use crate::units::Code;
use crate::walk::{walk, Line};
use crate::writing::{write, NotWritten};

/// The cases of a frame that is refused with 10, and of a quote that is accepted, in the order of their counts.
pub const LEVELS: [&str; 3] = ["six or seven levels", "levels beside the trade alone", "the same with another length"];
pub const SHOWN: [&str; 3] = ["levels shown", "the trade alone", "nothing"];

/// How often each answer occurred, over some lines.
#[derive(Clone, Debug, Default, PartialEq, Eq)]
pub struct Seen {
    /// By the answers' numbers, at every place of the walk.
    pub answers: [u64; 14],
    /// The bad halves that were told.
    pub halves: Halves,
    /// Frames refused with 10, by their case; another length is one that the reveal byte does not give.
    pub levels: [u64; 3],
    /// Accepted frames of the formats five, six, twelve and nineteen. Each was written back and gave its own bytes.
    pub formats: [u64; 4],
    /// Accepted quotes, by their case.
    pub shown: [u64; 3],
    /// Arrivals of format six that are new and repeated ones, and those refused with 21 and with 22.
    pub arrivals: [u64; 4],
    /// The same where a full ledger gives runs up: new and repeated ones, and those refused with 21 and with 25.
    pub above_floor: [u64; 4],
    /// How many runs it gave up.
    pub given_up: u64,
    /// Quotes that a clear board took, that were the day's last frame, and those refused with 52.
    pub taken: [u64; 3],
    /// Those taken whose levels are not shown: on a row with levels, on one without, and on one that was free.
    pub kept: [u64; 3],
    /// Rows at a line's end whose trade is that of their last quote, of an earlier one, and none yet; their sides without a
    /// level that an earlier quote listed; those of a code that is escaped.
    pub rows: [u64; 5],
    /// Rows at a line's end whose sides their last quote showed; whose levels an earlier one did; and that were left empty.
    pub sides: [u64; 3],
}

impl Seen {
    /// Adds what occurs on a closed line. Gives the first frame that is not the same when it is written back.
    pub fn line(&mut self, line: &[u8]) -> Result<(), String> {
        let (mut full, mut above_floor) = (Ledger::FRESH, Ledger::FRESH);
        let mut rows = board::CLEAR;
        let mut quotes: BTreeMap<Code, Vec<Quote>> = BTreeMap::new();
        for step in walk(line, Line::Closed) {
            self.answers[usize::from(step.answer.number())] += 1;
            self.halves.add(&step.answer, &line[step.place..]);
            if let Answer::Refused { length, why: reading::Refusal::Levels, .. } = step.answer {
                self.levels[levels_case(&line[step.place..step.place + length])] += 1;
            }
            if let Answer::Accepted { length, message } = &step.answer {
                write_back(&line[step.place..step.place + length], |buffer| write(message, buffer))
                    .map_err(|what| format!("{what}\n{}", around(line, step.place)))?;
                let format = match message {
                    Message::Five(_) => 0,
                    Message::Six(_) => 1,
                    Message::Twelve(_) => 2,
                    Message::Nineteen(_) => 3,
                };
                self.formats[format] += 1;
                if let Message::Six(quote) = message {
                    self.arrivals[arrival_case(full.arrival(quote.number))?] += 1;
                    self.giving_up(&mut above_floor, quote.number)?;
                    self.take(&mut rows, quote)?;
                    quotes.entry(quote.code).or_default().push(*quote);
                }
            }
        }
        for row in rows.iter().filter(|row| !row.is_free()) {
            self.row(row, &quotes[&row.code]);
        }
        Ok(())
    }

    /// Adds the arrival of a number at a ledger that gives runs up.
    fn giving_up(&mut self, ledger: &mut Ledger, number: u32) -> Result<(), String> {
        let floor = ledger.floor;
        self.above_floor[arrival_case(hear(ledger, number, WhenFull::GiveUp))?] += 1;
        self.given_up += u64::from(ledger.floor != floor);
        Ok(())
    }

    /// Adds a quote that was read, and what a board does with it.
    fn take(&mut self, rows: &mut [Row], quote: &Quote) -> Result<(), String> {
        self.shown[shown_case(quote)] += 1;
        let before = board::ask(rows, &quote.code).ok().copied();
        self.taken[match board::take(rows, quote) {
            Ok(()) => usize::from(quote.ends_the_day()),
            Err(board::Refusal::Full) => 2,
            Err(why) => return Err(format!("a board of quotes that were read answers {}", why.number())),
        }] += 1;
        if quote.bids().is_none() && board::ask(rows, &quote.code).is_ok() {
            self.kept[match before {
                Some(row) if row.bids.count + row.asks.count > 0 => 0,
                Some(_) => 1,
                None => 2,
            }] += 1;
        }
        Ok(())
    }

    /// Adds a row at a line's end, and the quotes that it is from.
    fn row(&mut self, row: &Row, quotes: &[Quote]) {
        let sends = quotes.last().is_some_and(|last| last.trade().is_some());
        self.rows[match row.trade {
            Some(_) if sends => 0,
            Some(_) => 1,
            None => 2,
        }] += 1;
        let lists = |side: Option<&[Pair]>| side.is_some_and(|levels| !levels.is_empty());
        let emptied = [
            row.bids.count == 0 && quotes.iter().any(|quote| lists(quote.bids())),
            row.asks.count == 0 && quotes.iter().any(|quote| lists(quote.asks())),
        ];
        self.rows[3] += emptied.map(u64::from).iter().sum::<u64>();
        self.rows[4] += u64::from(row.code.iter().any(|byte| b"\"\\".contains(byte)));
        let shows = quotes.last().is_some_and(|last| last.bids().is_some());
        self.sides[match row.bids.count + row.asks.count {
            _ if shows => 0,
            0 => 2,
            _ => 1,
        }] += 1;
    }

    /// Whether everything that is counted occurred.
    pub fn is_all(&self) -> bool {
        let of_frames = self.answers.iter().chain(&self.levels).chain(&self.formats).chain(&self.shown);
        let of_boards = self.taken.iter().chain(&self.kept).chain(&self.rows).chain(&self.sides);
        let of_ledgers = self.arrivals.iter().chain(&self.above_floor).chain([&self.given_up]);
        of_frames.chain(of_ledgers).chain(of_boards).all(|&times| times > 0) && self.halves.missed().is_none()
    }
}

impl fmt::Display for Seen {
    fn fmt(&self, f: &mut fmt::Formatter) -> fmt::Result {
        f.write_str("reading:")?;
        for (answer, times) in self.answers.iter().enumerate() {
            write!(f, " {answer}:{times}")?;
        }
        f.write_str("; 10 for ")?;
        cases(f, &LEVELS, &self.levels)?;
        write!(f, "\n{}", self.halves)?;
        let [five, six, twelve, nineteen] = self.formats;
        write!(f, "\naccepted and written back: five {five}, six {six}, twelve {twelve}, nineteen {nineteen}")?;
        f.write_str("; of six ")?;
        cases(f, &SHOWN, &self.shown)?;
        let [new, repeat, number, full] = self.arrivals;
        write!(f, "\nnumbers of format six: new {new}, repeat {repeat}, 21 {number}, 22 {full}")?;
        let [new, repeat, number, floor] = self.above_floor;
        write!(f, "; with {} runs given up: new {new}, repeat {repeat}, ", self.given_up)?;
        write!(f, "21 {number}, 25 {floor}")?;
        let [taken, last, full] = self.taken;
        write!(f, "\nboards: taken {taken}, the day's last {last}, 52 {full}; ")?;
        let [kept, empty, new] = self.kept;
        write!(f, "levels not shown: sides kept {kept}, empty ones kept {empty}, new rows {new}")?;
        let [sent, kept, none, emptied, escaped] = self.rows;
        write!(f, "\nrows: trade sent last {sent}, kept {kept}, none yet {none}; ")?;
        write!(f, "sides emptied {emptied}, codes escaped {escaped}; ")?;
        let [last, kept, none] = self.sides;
        write!(f, "sides shown last {last}, kept {kept}, still empty {none}")
    }
}

/// Cases by their names, and how often each occurred.
pub fn cases(f: &mut fmt::Formatter, names: &[&str], times: &[u64]) -> fmt::Result {
    let shown: Vec<_> = names.iter().zip(times).map(|(name, times)| format!("{name} {times}")).collect();
    f.write_str(&shown.join(", "))
}

/// Which case an arrival is. A ledger that gives runs up never refuses with 22, and one that does not never with 25.
fn arrival_case(answer: Result<Arrival, Refusal>) -> Result<usize, String> {
    match answer {
        Ok(Arrival::New) => Ok(0),
        Ok(Arrival::Repeat) => Ok(1),
        Err(Refusal::Number) => Ok(2),
        Err(Refusal::Full | Refusal::Floor) => Ok(3),
        Err(why) => Err(format!("a ledger of arrivals answers {}", why.number())),
    }
}

/// Which case a frame is that is refused with 10.
pub fn levels_case(frame: &[u8]) -> usize {
    let reveal = Reveal::of(frame[HEAD + REVEAL]);
    match reveal.bids.max(reveal.asks) {
        most if most > MOST_LEVELS => 0,
        _ if frame.len() == reveal.length() => 1,
        _ => 2,
    }
}

/// Which case a quote is that is accepted.
pub fn shown_case(quote: &Quote) -> usize {
    match (quote.bids(), quote.trade()) {
        (Some(_), _) => 0,
        (None, Some(_)) => 1,
        (None, None) => 2,
    }
}

/// The writing of a frame's message gives the frame's own bytes and changes none behind them; a buffer one byte short is refused
/// with 15.
pub(crate) fn write_back(frame: &[u8], write: impl Fn(&mut [u8]) -> Result<usize, NotWritten>) -> Result<(), String> {
    const BEHIND: u8 = 0xEE;
    let mut buffer = vec![BEHIND; frame.len() + 5];
    if write(&mut buffer) != Ok(frame.len()) || !buffer.starts_with(frame) {
        return Err(format!("written back it is another frame: {}", hex(&buffer)));
    }
    if buffer[frame.len()..].iter().any(|&byte| byte != BEHIND) {
        return Err("writing it back changes bytes behind it".into());
    }
    let mut short = vec![BEHIND; frame.len() - 1];
    if write(&mut short) != Err(NotWritten::Buffer) || short.iter().any(|&byte| byte != BEHIND) {
        return Err("a buffer one byte short is not refused with 15 and left as it came".into());
    }
    Ok(())
}

/// The bytes of the frame at a place of a stock line, or some if there is none, and 16 on either side.
pub fn around(line: &[u8], place: usize) -> String {
    around_of::<Stock>(line, place)
}

/// The same for a line of any exchange.
pub fn around_of<E: Exchange>(line: &[u8], place: usize) -> String {
    let length = E::read(line.get(place..).unwrap_or(&[])).length().unwrap_or(64);
    let cut = |from: usize, to: usize| hex(&line[from.min(line.len())..to.min(line.len())]);
    let (before, behind) = (cut(place.saturating_sub(16), place), cut(place + length, place + length + 16));
    format!("before: {before}\nfrom {place} on: {}\nbehind: {behind}", cut(place, place + length))
}

fn hex(bytes: &[u8]) -> String {
    let bytes: Vec<String> = bytes.iter().map(|byte| format!("{byte:02X}")).collect();
    bytes.join(" ")
}
