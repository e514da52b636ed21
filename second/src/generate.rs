//! Noisy closed lines for the comparison: frames of the four formats in all their variants, damaged ones, and noise. The same
//! seed makes the same lines everywhere.
//!
//! Frames are put together here digit by digit, without the writing, so that the writing is tried on them too.

use crate::gaps::WhenFull;
use crate::random::Random;
use crate::reading::Message;
use crate::series::Series;
use crate::units::Code;
use crate::walk::{walk, Line};

const PRICE: u64 = 999_999_999;
const QUANTITY: u64 = 99_999_999;
const NINES: u64 = 999_999_999_999;
const ZERO: Code = *b"000000";

/// How many stocks most quotes of a line are of.
const STOCKS: [usize; 5] = [1, 3, 20, 100, 300];

/// A frame before its outline is put around it.
#[derive(Clone)]
struct Draft {
    format: u64,
    /// Business, format, version and number.
    head: Vec<u8>,
    body: Vec<u8>,
}

impl Draft {
    fn new(format: u64, version: u64, number: u32, body: Vec<u8>) -> Draft {
        let mut head = Vec::new();
        digits(&mut head, 1, 2);
        digits(&mut head, format, 2);
        digits(&mut head, version, 2);
        digits(&mut head, u64::from(number), 8);
        Draft { format, head, body }
    }

    /// The frame with its own length, a right check byte and a right end.
    fn bytes(&self) -> Vec<u8> {
        let mut bytes = vec![27];
        digits(&mut bytes, self.body.len() as u64 + 13, 4);
        bytes.extend(&self.head);
        bytes.extend(&self.body);
        bytes.extend([0, 0x0D, 0x0A]);
        put_check_right(&mut bytes);
        bytes
    }

    /// The places of the body that hold packed digits.
    fn packed(&self) -> Vec<usize> {
        let holds = |place: &usize| match self.format {
            5 => *place == 0,
            6 => (6..12).contains(place) || *place >= 15,
            12 => *place == 0 || (place - 1) % 36 >= 6,
            _ => (6..12).contains(place),
        };
        (0..self.body.len()).filter(holds).collect()
    }

    /// The places of the body at which a price begins.
    fn prices(&self) -> Vec<usize> {
        match self.format {
            6 => (19..self.body.len()).step_by(9).collect(),
            12 => (0..40).map(|price| 7 + price / 4 * 36 + price % 4 * 5).filter(|&at| at < self.body.len()).collect(),
            _ => Vec::new(),
        }
    }

    /// Puts bytes over those of the body, as far as it goes.
    fn put(&mut self, place: usize, bytes: &[u8]) {
        for (old, new) in self.body.iter_mut().skip(place).zip(bytes) {
            *old = *new;
        }
    }

    /// The same with a number as packed digits.
    fn put_digits(&mut self, place: usize, number: u64, count: u32) {
        let mut bytes = Vec::new();
        digits(&mut bytes, number, count);
        self.put(place, &bytes);
    }
}

/// A half to be made bad: its place in a frame of a format, 0 for any, and the values with which it is bad.
#[derive(Clone, Copy)]
struct Spot {
    format: u64,
    place: usize,
    values: (u8, u8),
}

const NO_DIGIT: (u8, u8) = (10, 15);
const NO_LEADING_ZERO: (u8, u8) = (1, 9);

/// Each half of the length and the header, and of every packed field of every format; those that prices begin with are bad in
/// two ways.
fn spots() -> Vec<Spot> {
    let half = |format, place, values| Spot { format, place, values };
    let mut spots: Vec<Spot> = (2..20).map(|place| half(0, place, NO_DIGIT)).collect();
    for (format, longest) in [(5, 1), (6, 118), (12, 361), (19, 13)] {
        let draft = Draft { format, head: Vec::new(), body: vec![0; longest] };
        let high = |at: usize| 2 * (10 + at);
        for at in draft.packed() {
            spots.extend([high(at), high(at) + 1].map(|place| half(format, place, NO_DIGIT)));
        }
        spots.extend(draft.prices().into_iter().map(|at| half(format, high(at), NO_LEADING_ZERO)));
    }
    spots
}

/// Adds a number as so many packed digits, an even count; digits above are left out.
pub(crate) fn digits(bytes: &mut Vec<u8>, number: u64, count: u32) {
    for place in (0..count / 2).rev() {
        let two = number / 100_u64.pow(place) % 100;
        bytes.push((two / 10 * 16 + two % 10) as u8);
    }
}

pub(crate) fn put_check_right(bytes: &mut [u8]) {
    let at = bytes.len().saturating_sub(3);
    if at > 0 {
        bytes[at] = bytes[1..at].iter().fold(0, |sum, byte| sum ^ byte);
    }
}

/// A byte with a half above 9.
pub(crate) fn bad_digit(random: &mut Random, byte: u8) -> u8 {
    let half = 10 + random.below(6) as u8;
    match random.below(3) {
        0 => half << 4 | byte & 0x0F,
        1 => byte & 0xF0 | half,
        _ => half << 4 | half,
    }
}

/// Puts a half at its place, counted in halves from the first byte.
pub(crate) fn put_half(bytes: &mut [u8], place: usize, half: u8) {
    let byte = &mut bytes[place / 2];
    *byte = if place % 2 == 1 { *byte & 0xF0 | half } else { half << 4 | *byte & 0x0F };
}

/// How many pairs a reveal byte calls for.
fn pairs_of(reveal: u8) -> usize {
    usize::from((reveal >> 7) + (reveal >> 4 & 7) + (reveal >> 1 & 7))
}

pub struct Generator {
    random: Random,
    quotes: Series,
    stocks: Vec<Code>,
    spots: Vec<Spot>,
    /// Whose turn it is to be made bad.
    turn: usize,
}

impl Generator {
    pub fn new(seed: u64) -> Generator {
        let quotes = Series::new(WhenFull::Refuse);
        Generator { random: Random::new(seed), quotes, stocks: Vec::new(), spots: spots(), turn: 0 }
    }

    /// A closed line of so many frames, whole or damaged, with noise between them. At its end a frame is cut. The numbers of
    /// format six start anew, for a ledger that gives runs up or one that does not, and its stocks are others.
    pub fn line(&mut self, frames: usize) -> Vec<u8> {
        self.quotes = Series::new(self.random.pick(&[WhenFull::Refuse, WhenFull::GiveUp]));
        self.stocks = (0..self.random.pick(&STOCKS)).map(|_| self.code()).collect();
        let mut line = Vec::new();
        for _ in 1..frames {
            let piece = match self.random.below(20) {
                0..=9 => self.whole(),
                10..=16 => self.damaged(),
                17 => self.bad_half(),
                18 => self.around_frames(),
                _ => self.cut(),
            };
            for step in walk(&piece, Line::Closed) {
                if let Some(Message::Six(quote)) = step.answer.message() {
                    let _ = self.quotes.came(quote.number);
                }
            }
            line.extend(piece);
            if self.random.one_in(8) {
                line.extend(self.noise());
            }
        }
        line.extend(self.cut());
        line
    }

    /// A frame that keeps all the rules.
    pub fn whole(&mut self) -> Vec<u8> {
        self.draft().bytes()
    }

    fn draft(&mut self) -> Draft {
        match self.random.below(20) {
            0..=3 => self.notice(),
            4..=13 => self.quote(),
            14 | 15 => self.prices(),
            _ => self.halt(),
        }
    }

    fn number(&mut self) -> u32 {
        self.random.amount(QUANTITY) as u32
    }

    fn notice(&mut self) -> Draft {
        let mut body = Vec::new();
        digits(&mut body, self.random.pick(&[0, 9, 90, 99]), 2);
        let length = if self.random.one_in(4) { self.random.pick(&[0, 1, 59, 60]) } else { self.random.within(0..=60) };
        let text: Vec<u8> = match self.random.below(6) {
            0 => (0..length).map(|_| self.random.byte()).collect(),
            1 => (0..length).map(|_| self.random.pick(&[27, 0x0D, 0x0A, 0, 0x14, 0x26])).collect(),
            2 if length >= 14 => {
                // another frame in the text
                let inner = if length >= 26 { self.halt() } else { Draft::new(5, 1, 1, vec![9]) }.bytes();
                let before = self.random.within(0..=length - inner.len());
                let mut text = vec![b'.'; length];
                text[before..before + inner.len()].copy_from_slice(&inner);
                text
            }
            _ => (0..length).map(|_| 32 + self.random.below(95) as u8).collect(),
        };
        body.extend(text);
        let number = self.number();
        Draft::new(5, 1, number, body)
    }

    fn quote(&mut self) -> Draft {
        let trade = self.random.byte() & 0x80;
        let reveal = if self.random.one_in(4) {
            trade | 1
        } else {
            trade | (self.random.within(0..=5) << 4 | self.random.within(0..=5) << 1) as u8
        };
        self.quote_of(reveal)
    }

    /// A quote with the pairs that a reveal byte says.
    fn quote_of(&mut self, reveal: u8) -> Draft {
        let (mut code, mut time) = (self.quoted_code(), self.time());
        if self.random.one_in(30) {
            (code, time) = (ZERO, NINES);
        }
        let mut body = code.to_vec();
        digits(&mut body, time, 12);
        body.extend([reveal, self.random.byte(), self.random.byte()]);
        digits(&mut body, self.random.amount(QUANTITY), 8);
        for _ in 0..pairs_of(reveal) {
            digits(&mut body, self.random.amount(PRICE), 10);
            digits(&mut body, self.random.amount(QUANTITY), 8);
        }
        let number = self.quotes.next(&mut self.random);
        Draft::new(6, 4, number, body)
    }

    fn prices(&mut self) -> Draft {
        let count = self.random.within(1..=10);
        let closed = self.random.one_in(3);
        let mut body = Vec::new();
        digits(&mut body, count as u64, 2);
        for place in 0..10 {
            let ends = place + 1 == count && self.random.one_in(3);
            let used = place < count && !ends;
            let code = if ends { ZERO } else { self.code() };
            body.extend(if place < count { code } else { *b"      " });
            for _ in 0..4 {
                digits(&mut body, if used { self.random.amount(PRICE) } else { 0 }, 10);
            }
            digits(&mut body, if used { self.random.amount(QUANTITY) } else { 0 }, 8);
            let time = if closed || self.random.one_in(8) { NINES } else { self.time() };
            digits(&mut body, if used || ends && self.random.one_in(3) { time } else { 0 }, 12);
        }
        let number = self.number();
        Draft::new(12, 3, number, body)
    }

    fn halt(&mut self) -> Draft {
        let (halted, resumed) = (self.time() / 1_000_000, self.time() / 1_000_000);
        let (code, halted, resumed) = match self.random.below(6) {
            0 => (format!("{:06}", self.random.amount(999_999)).into_bytes(), 999_999, 999_999),
            1 => (ZERO.to_vec(), halted, if self.random.one_in(2) { 999_999 } else { resumed }),
            2 | 3 => (self.code().to_vec(), halted, 999_999),
            _ => (self.code().to_vec(), halted, resumed),
        };
        let mut body = code;
        digits(&mut body, halted, 6);
        digits(&mut body, resumed, 6);
        body.push(self.random.pick(b"CI"));
        let number = self.number();
        Draft::new(19, 1, number, body)
    }

    /// Mostly the code of one of the line's stocks, else any.
    fn quoted_code(&mut self) -> Code {
        if self.stocks.is_empty() || self.random.one_in(4) {
            self.code()
        } else {
            self.random.pick(&self.stocks)
        }
    }

    /// A code that keeps the rule, but not `000000`.
    fn code(&mut self) -> Code {
        let mut code = *b"      ";
        match self.random.below(8) {
            0 => {}
            1 => code.fill_with(|| self.random.pick(b" ~\"\\")),
            2 => code.fill_with(|| 32 + self.random.below(95) as u8),
            3 => code.fill_with(|| self.random.pick(b"0123456789")),
            _ => code[..4].fill_with(|| self.random.pick(b"0123456789")),
        }
        if code == ZERO {
            code[5] = b'1';
        }
        code
    }

    /// HHMMSSffffff, a time of day.
    fn time(&mut self) -> u64 {
        let mut part = |count: u64| match self.random.below(6) {
            0 => 0,
            1 => count - 1,
            _ => self.random.below(count),
        };
        ((part(24) * 100 + part(60)) * 100 + part(60)) * 1_000_000 + part(1_000_000)
    }

    /// HHMMSSffffff that is no time of day, or all nines.
    fn wrong_time(&mut self) -> u64 {
        let time = self.time();
        let (hours, minutes, seconds) = (time / 10_000_000_000, time / 100_000_000 % 100, time / 1_000_000 % 100);
        let above = |random: &mut Random, count: u64| random.pick(&[count, count + 1, 99]);
        let (hours, minutes, seconds) = match self.random.below(5) {
            0 => (above(&mut self.random, 24), minutes, seconds),
            1 => (hours, above(&mut self.random, 60), seconds),
            2 => (hours, minutes, above(&mut self.random, 60)),
            3 => return NINES,
            _ => return self.random.pick(&[NINES - 1, 999_999_000_000, 240_000_000_000, 235_960_000_000]),
        };
        ((hours * 100 + minutes) * 100 + seconds) * 1_000_000 + time % 1_000_000
    }

    fn wrong_code(&mut self) -> Code {
        let mut code = self.code();
        let place = self.random.within(0..=5);
        code[place] = self.random.pick(&[31, 127, 0, 255, 27, 128, 13]);
        code
    }

    /// A frame with one to three faults, then perhaps a fault in its outline.
    fn damaged(&mut self) -> Vec<u8> {
        let mut draft = self.draft();
        for _ in 0..self.random.pick(&[0, 1, 1, 1, 1, 1, 2, 2, 3]) {
            self.damage(&mut draft);
        }
        let mut bytes = draft.bytes();
        let any = self.random.within(0..=bytes.len() - 1);
        // the length that the frame's bytes claim, and the place of its check byte
        let (claim, check) = (1..3, bytes.len() - 3);
        match self.random.below(16) {
            0 => bytes[any] ^= 1 << self.random.below(8),
            1 => bytes[any] = self.random.byte(),
            2 | 3 => {
                // The first digits of format six's numbers are mostly left, or all the line's numbers would soon be high.
                let high = draft.format == 6 && (6..9).contains(&any);
                if any != check && (!high || self.random.one_in(100)) {
                    bytes[any] = self.random.byte();
                    put_check_right(&mut bytes);
                }
            }
            4 => {
                let other = self.random.within(14..=1024) as u64;
                let length = self.random.pick(&[0, 13, 14, 15, 1023, 1024, 1025, 9999, other]);
                let mut other = Vec::new();
                digits(&mut other, length, 4);
                bytes[claim].copy_from_slice(&other);
                put_check_right(&mut bytes);
            }
            5 => {
                let place = self.random.within(claim.start..=claim.end - 1);
                bytes[place] = bad_digit(&mut self.random, bytes[place]);
                put_check_right(&mut bytes);
            }
            6 => bytes[check] ^= self.random.pick(&[1, 27, 0x80, 0xFF]),
            7 => {
                let place = self.random.within(check + 1..=check + 2);
                bytes[place] = self.random.pick(&[0x0A, 0x0D, 0x0B, 0, 27]);
            }
            _ => {}
        }
        bytes
    }

    /// One fault in the header or the body; its check byte will be right.
    fn damage(&mut self, draft: &mut Draft) {
        match self.random.below(12) {
            0 => {
                let place = self.random.within(0..=draft.head.len() - 1);
                draft.head[place] = bad_digit(&mut self.random, draft.head[place]);
            }
            1 => {
                let places = draft.packed();
                if !places.is_empty() {
                    let place = self.random.pick(&places);
                    draft.body[place] = bad_digit(&mut self.random, draft.body[place]);
                }
            }
            2 => {
                let other = self.random.byte();
                draft.head[0] = self.random.pick(&[0x00, 0x02, 0x10, 0x11, 0x99, other]);
            }
            3 => {
                let other = self.random.byte();
                draft.head[1] = self.random.pick(&[0x05, 0x06, 0x12, 0x19, 0x00, 0x01, 0x17, 0x0C, 0x13, 0x99, other]);
            }
            4 => draft.head[2] = self.random.pick(&[0x00, 0x01, 0x02, 0x03, 0x04, 0x05, 0x10, 0x11]),
            5 => self.damage_length(draft),
            6 if !draft.body.is_empty() => {
                let place = self.random.within(0..=draft.body.len() - 1);
                draft.body[place] = self.random.byte();
            }
            _ => match draft.format {
                5 => draft.put(0, &[self.random.pick(&[0x01, 0x08, 0x10, 0x19, 0x89, 0x91, 0x98, 0x0A, 0xFF])]),
                6 => self.damage_quote(draft),
                12 => self.damage_prices(draft),
                _ => self.damage_halt(draft),
            },
        }
    }

    /// A frame with a bad half, the next one in turn, and perhaps with further ones behind it and a wrong code.
    fn bad_half(&mut self) -> Vec<u8> {
        let spot = self.spots[self.turn % self.spots.len()];
        self.turn += 1;
        let mut draft = match spot.format {
            5 => self.notice(),
            6 => self.quote_of(0xDA),
            12 => self.prices(),
            19 => self.halt(),
            _ => self.draft(),
        };
        if draft.format != 5 && self.random.one_in(3) {
            let code = self.wrong_code();
            draft.put(usize::from(draft.format == 12), &code);
        }
        for at in draft.packed().into_iter().filter(|at| 10 + at > spot.place / 2) {
            if self.random.one_in(100) {
                draft.body[at] = bad_digit(&mut self.random, draft.body[at]);
            }
        }
        let mut bytes = draft.bytes();
        let (least, greatest) = spot.values;
        let half = self.random.within(usize::from(least)..=usize::from(greatest)) as u8;
        put_half(&mut bytes, spot.place, half);
        put_check_right(&mut bytes);
        bytes
    }

    /// A body of another length, so that the whole frame has it.
    fn damage_length(&mut self, draft: &mut Draft) {
        let other = self.random.within(0..=1012);
        let edges = [13, 14, 25, 26, 27, 31, 32, 33, 41, 74, 75, 130, 131, 132, 140, 373, 374, 375, 1023, 1024, 1025];
        let length = match self.random.below(4) {
            0 => other,
            1 => draft.body.len() + self.random.pick(&[1, 9, 18]),
            2 => draft.body.len().saturating_sub(self.random.pick(&[1, 9, 18])),
            _ => self.random.pick(&edges) - 13,
        };
        let filling = self.random.pick(&[0, b' ', 27, 0x99]);
        draft.body.resize(length.min(1012), filling);
    }

    fn damage_quote(&mut self, draft: &mut Draft) {
        let reveal = draft.body.get(12).copied().unwrap_or_default();
        match self.random.below(11) {
            0 => {
                // six or seven levels, with or without their pairs
                let reveal = match self.random.below(3) {
                    0 => reveal & 0x8F | self.random.pick(&[0x60, 0x70]),
                    1 => reveal & 0xF1 | self.random.pick(&[0x0C, 0x0E]),
                    _ => reveal & 0x81 | self.random.pick(&[0x6C, 0x7E, 0x6E, 0x7C]),
                };
                self.put_reveal(draft, reveal);
            }
            1 => {
                // only the trade, and yet the levels that there are, or others
                let others = self.random.pick(&[0x10, 0x02, 0x12, 0x50, 0x5A]);
                self.put_reveal(draft, if reveal & 0x7E == 0 { reveal | others } else { reveal } | 1);
            }
            2 => draft.put(12, &[self.random.byte()]),
            3 => draft.put(12, &[reveal ^ 0x80]),
            4 => draft.put(12, &[reveal ^ 0x01]),
            5 => {
                let time = self.wrong_time();
                draft.put_digits(6, time, 12);
            }
            6 => {
                let code = self.wrong_code();
                draft.put(0, &code);
            }
            7 => draft.put(0, &ZERO),
            8 => draft.put_digits(6, NINES, 12),
            9 => self.damage_price(draft),
            _ => {
                let code = self.wrong_code();
                draft.put(0, &code);
                draft.put_digits(6, NINES, 12);
            }
        }
    }

    /// Another reveal byte, with or without the pairs that it calls for.
    fn put_reveal(&mut self, draft: &mut Draft, reveal: u8) {
        draft.put(12, &[reveal]);
        if self.random.one_in(2) {
            draft.body.resize(19 + 9 * pairs_of(reveal), 0);
        }
    }

    /// A price with more than nine digits.
    fn damage_price(&mut self, draft: &mut Draft) {
        let places = draft.prices();
        if !places.is_empty() {
            let place = self.random.pick(&places);
            draft.body[place] |= 1 << (4 + self.random.below(4));
        }
    }

    fn damage_prices(&mut self, draft: &mut Draft) {
        let at = 1 + 36 * self.random.within(0..=9);
        let count = draft.body.first().map_or(0, |&count| u64::from(count >> 4) * 10 + u64::from(count & 15));
        match self.random.below(10) {
            0 => {
                let other = self.random.below(100);
                let count = self.random.pick(&[0, 11, 12, 99, count + 1, count.saturating_sub(1), other]);
                draft.put_digits(0, count, 2);
            }
            1 => {
                let time = self.wrong_time();
                draft.put_digits(at + 30, time, 12);
            }
            2 => {
                let code = self.wrong_code();
                draft.put(at, &code);
            }
            3 => {
                let code = if self.random.one_in(2) { ZERO } else { self.code() };
                draft.put(at, &code);
            }
            4 => {
                // an amount, perhaps in an unused slot
                let amount = self.random.amount(PRICE);
                let place = self.random.pick(&[6, 11, 16, 21, 25, 26]);
                draft.put_digits(at + place, amount, if place < 25 { 10 } else { 8 });
            }
            5 => {
                let time = self.time();
                draft.put_digits(at + 30, time, 12);
            }
            6 => {
                // an outside count, with nines in one slot or in all
                let other = self.random.within(11..=99) as u64;
                draft.put_digits(0, self.random.pick(&[0, 11, other]), 2);
                let all = self.random.one_in(2);
                for slot in (1..361).step_by(36).filter(|slot| all || *slot == at) {
                    draft.put_digits(slot + 30, NINES, 12);
                }
            }
            7 => self.damage_price(draft),
            8 => {
                // all slots as unused ones are, and a count that may be right for them
                draft.put_digits(0, self.random.pick(&[0, 0, 1, 10, 11]), 2);
                for slot in (1..361).step_by(36) {
                    draft.put(slot, b"      ");
                    draft.put(slot + 6, &[0; 30]);
                }
            }
            _ => draft.put(at + self.random.within(0..=35), &[1]),
        }
    }

    fn damage_halt(&mut self, draft: &mut Draft) {
        let wrong = self.wrong_time() / 1_000_000;
        let time = self.time() / 1_000_000;
        match self.random.below(8) {
            0 => draft.put_digits(6, wrong, 6),
            1 => draft.put_digits(9, wrong, 6),
            2 => {
                draft.put_digits(6, 999_999, 6);
                draft.put_digits(9, time, 6);
            }
            3 | 4 => {
                // a round's end whose code may be no number
                draft.put_digits(6, 999_999_999_999, 12);
                let mut code = if self.random.one_in(2) { self.code() } else { *b"000123" };
                code[self.random.within(0..=5)] = self.random.pick(b"/0:9 A~");
                draft.put(0, &code);
            }
            5 => {
                let code = self.wrong_code();
                draft.put(0, &code);
            }
            6 => draft.put(12, &[self.random.byte()]),
            _ => draft.put(12, &[self.random.pick(b"BDHJci \0")]),
        }
    }

    /// A frame that is cut anywhere.
    fn cut(&mut self) -> Vec<u8> {
        let mut bytes = self.whole();
        let length = self.random.within(1..=bytes.len() - 1);
        bytes.truncate(length);
        bytes
    }

    /// A false frame with whole ones inside its claimed length; its end and check byte may be right.
    fn around_frames(&mut self) -> Vec<u8> {
        let length = self.random.within(14..=1024);
        let mut bytes = vec![27];
        digits(&mut bytes, length as u64, 4);
        if self.random.one_in(2) {
            bytes.extend([1, self.random.pick(&[0x05, 0x06, 0x12, 0x19]), self.random.pick(&[1, 3, 4]), 0, 0, 0, 1]);
        }
        while bytes.len() < length {
            let inner = if self.random.one_in(4) { self.noise() } else { self.whole() };
            bytes.extend(inner);
        }
        match self.random.below(4) {
            0 => {}
            1 => bytes.truncate(length),
            right => {
                bytes.truncate(length);
                bytes[length - 2..].copy_from_slice(&[0x0D, 0x0A]);
                if right == 3 {
                    put_check_right(&mut bytes);
                }
            }
        }
        bytes
    }

    /// Bytes that are no frame, as far as chance goes.
    fn noise(&mut self) -> Vec<u8> {
        let most = match self.random.below(2000) {
            0 => 200_000, // more than any buffer
            1..=49 => 1500,
            _ => 30,
        };
        let length = self.random.within(1..=most);
        match self.random.below(6) {
            0 => (0..length).map(|_| self.random.byte()).collect(),
            1 => (0..length).map(|_| self.random.pick(&[27, 27, 0, 0x10, 0x14, 0x24, 0x0D, 0x0A])).collect(),
            2 => vec![27; length],
            3 => {
                let mut bytes = vec![27];
                digits(&mut bytes, self.random.below(1100), 4);
                bytes.truncate(length);
                bytes
            }
            4 => [0x0D, 0x0A].repeat(length),
            _ => vec![b'.'; length],
        }
    }
}
