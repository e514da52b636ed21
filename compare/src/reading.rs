//! Readings at every place of a line: the answer with its figures, the message by its kind, and that a refused reading leaves
//! what it was lent.

use std::fmt;

use second::halves::Halves;
use second::reading::read_at;
use second::seen::{around, cases, levels_case, shown_case, LEVELS, SHOWN};
use second::{six, Message};
use trivsome::{raw, Code, Halt, Notice, Pair, Price, Prices, Quantity, Quote};

use crate::same::{self, differ, outcome, told};

/// A byte that the lent memory is full of before a reading.
const LENT: u8 = 0xA5;
const LENT_NUMBER: u32 = 0xA5A5_A5A5;
const LENT_TIME: u64 = 0xA5A5_A5A5_A5A5_A5A5;

/// The answers for a length, and for level counts.
const LENGTH: u8 = 3;
const LEVEL_COUNTS: u8 = 10;

/// A frame that was accepted: its place, its length and the second program's message of it.
pub struct Accepted {
    pub place: usize,
    pub length: usize,
    pub message: Message,
}

/// What occurred.
#[derive(Default)]
pub struct Readings {
    places: u64,
    /// By the answers' numbers, at every place.
    answers: [u64; 14],
    /// Which bad halves were told.
    halves: Halves,
    /// Frames refused with 10, by their case.
    levels: [u64; 3],
    /// Accepted frames of the formats five, six, twelve and nineteen.
    formats: [u64; 4],
    /// Accepted quotes, by their case.
    shown: [u64; 3],
    /// What is lent, and comes back as it was from a refusal.
    lent: Lent,
}

/// A message of each kind to be read into.
#[derive(Clone)]
struct Lent {
    notice: Notice,
    quote: Quote,
    prices: Prices,
    code: [u8; 6],
    event: [u32; 4],
}

impl Default for Lent {
    fn default() -> Lent {
        let pair = Pair { price: Price(LENT_NUMBER), quantity: Quantity(LENT_NUMBER) };
        let quote = Quote {
            time: LENT_TIME,
            seq: LENT_NUMBER,
            total: Quantity(LENT_NUMBER),
            trade: pair,
            bids: [pair; 5],
            asks: [pair; 5],
            code: Code([LENT; 6]),
            reveal: LENT,
            limit: LENT,
            status: LENT,
        };
        let price = Price(LENT_NUMBER);
        let amounts = trivsome::Amounts {
            opening: price,
            highest: price,
            lowest: price,
            last: price,
            total: Quantity(LENT_NUMBER),
        };
        let prices = Prices {
            seq: LENT_NUMBER,
            count: LENT,
            codes: [Code([LENT; 6]); 10],
            amounts: [amounts; 10],
            times: [LENT_TIME; 10],
        };
        let notice = Notice::new(LENT_NUMBER, LENT, &[LENT; 60]).unwrap_or_default();
        Lent { notice, quote, prices, code: [LENT; 6], event: [LENT_NUMBER; 4] }
    }
}

impl Lent {
    /// All of them are as the others.
    fn is(&self, other: &Lent) -> Result<(), String> {
        same_message("the lent notice", &self.notice, &other.notice)?;
        same_message("the lent quote", &self.quote, &other.quote)?;
        same_message("the lent prices", &self.prices, &other.prices)?;
        same_message("the lent halt", &(self.code, self.event), &(other.code, other.event))
    }

    /// Reads into all of them, and compares what that gives.
    fn read(&mut self, line: &[u8], place: usize, answer: &second::Answer) -> Result<(), String> {
        let notice = trivsome::read_notice_into(line, place, &mut self.notice);
        same_message("reading a notice", &notice, &same::reading(answer, Notice::FORMAT))?;
        let quote = trivsome::read_quote_into(line, place, &mut self.quote);
        same_message("reading a quote", &quote, &same::reading(answer, Quote::FORMAT))?;
        let prices = trivsome::read_prices_into(line, place, &mut self.prices);
        same_message("reading prices", &prices, &same::reading(answer, Prices::FORMAT))?;
        let halt = raw::read_halt(line, place, &mut self.code, &mut self.event);
        same_outcome("reading a halt", halt, outcome(answer))
    }
}

/// Two outcomes are the same.
fn same_outcome(what: &str, proved: u64, second: u64) -> Result<(), String> {
    if proved == second {
        Ok(())
    } else {
        Err(differ(what, &told(proved), &told(second)))
    }
}

/// Two messages of a kind are the same.
fn same_message<T: PartialEq + fmt::Debug>(what: &str, proved: &T, second: &T) -> Result<(), String> {
    if proved == second {
        Ok(())
    } else {
        Err(differ(what, proved, second))
    }
}

/// What a quote says of its levels by its names: whether they are shown, and both sides.
fn same_sides(proved: &Quote, second: &six::Quote) -> Result<(), String> {
    same_message("whether levels are shown", &proved.shows_levels(), &second.bids().is_some())?;
    same_message("the bids", &proved.bids(), &same::levels(second.bids()).as_deref())?;
    same_message("the asks", &proved.asks(), &same::levels(second.asks()).as_deref())
}

impl Readings {
    /// Compares the readings at every place of a line and past its end, and of each frame and each wrong length with its line
    /// ending behind it or a byte before. Gives the accepted frames.
    pub fn line(&mut self, line: &[u8]) -> Result<Vec<Accepted>, String> {
        let mut accepted = Vec::new();
        let fresh = Lent::default();
        for place in (0..line.len() + 2).chain([usize::MAX]) {
            let within = |what: String| format!("place {place}: {what}\n{}", around(line, place.min(line.len())));
            let answer = read_at(line, place);
            self.places += 1;
            self.answers[usize::from(answer.number())] += 1;
            self.halves.add(&answer, line.get(place..).unwrap_or_default());
            self.one(line, place, &answer, &fresh).map_err(within)?;
            if let Some(length) = answer.length().or((answer.number() == LENGTH).then_some(3)) {
                let end = place + length;
                if answer.number() == LEVEL_COUNTS {
                    self.levels[levels_case(&line[place..end])] += 1;
                }
                let cut = |end: usize| {
                    let (proved, second) = (raw::read(&line[..end], place), outcome(&read_at(&line[..end], place)));
                    same_outcome("read", proved, second).map_err(|what| within(format!("cut at {end}, {what}")))
                };
                cut(end)?;
                cut(end - 1)?;
                if let Some(&message) = answer.message() {
                    accepted.push(Accepted { place, length, message });
                }
            }
        }
        Ok(accepted)
    }

    fn one(&mut self, line: &[u8], place: usize, answer: &second::Answer, fresh: &Lent) -> Result<(), String> {
        same_outcome("read", raw::read(line, place), outcome(answer))?;
        self.lent.read(line, place, answer)?;
        let mut halt = Halt::default();
        let told = trivsome::read_halt_into(line, place, &mut halt);
        same_message("reading a halt by its names", &told, &same::reading(answer, Halt::FORMAT))?;
        let Some(message) = answer.message() else {
            return self.lent.is(fresh).map_err(|what| format!("refused with {}: {what}", answer.number()));
        };
        self.messages(message, &halt, fresh)?;
        self.lent = fresh.clone();
        Ok(())
    }

    /// The message of an accepted frame; what was lent for the other kinds is as it was.
    fn messages(&mut self, message: &Message, proved: &Halt, fresh: &Lent) -> Result<(), String> {
        let mut expected = fresh.clone();
        self.formats[match message {
            Message::Five(five) => {
                expected.notice = same::notice(five).unwrap_or_default();
                0
            }
            Message::Six(six) => {
                expected.quote = same::quote(six);
                same_sides(&self.lent.quote, six)?;
                self.shown[shown_case(six)] += 1;
                1
            }
            Message::Twelve(twelve) => {
                expected.prices = same::prices(twelve);
                2
            }
            Message::Nineteen(nineteen) => {
                let halt = same::halt(nineteen);
                same_message("the halt", proved, &halt)?;
                expected.code = halt.code.0;
                expected.event = same::event(nineteen);
                3
            }
        }] += 1;
        self.lent.is(&expected)
    }

    /// What did not occur.
    pub fn missed(&self) -> Option<String> {
        let answer = self.answers.iter().position(|&times| times == 0).map(|answer| format!("answer {answer}"));
        let mut cases = LEVELS.iter().zip(&self.levels).chain(SHOWN.iter().zip(&self.shown));
        let case = cases.find(|(_, times)| **times == 0).map(|(name, _)| format!("of quotes, {name}"));
        let format = self.formats.contains(&0).then(|| "one of the formats".into());
        answer.or(case).or(format).or_else(|| self.halves.missed())
    }
}

impl fmt::Display for Readings {
    fn fmt(&self, f: &mut fmt::Formatter) -> fmt::Result {
        let [five, six, twelve, nineteen] = self.formats;
        write!(f, "{} places; five {five}, six {six}, twelve {twelve}, nineteen {nineteen};", self.places)?;
        self.answers.iter().enumerate().try_for_each(|(answer, times)| write!(f, " {answer}:{times}"))?;
        f.write_str("; 10 for ")?;
        cases(f, &LEVELS, &self.levels)?;
        f.write_str("; quotes with ")?;
        cases(f, &SHOWN, &self.shown)?;
        write!(f, "; {}", self.halves)
    }
}
