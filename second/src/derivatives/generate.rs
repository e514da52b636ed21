//! Noisy closed lines of this exchange for the comparison: frames of both kinds, both markets and both forms, repeated ones,
//! damaged ones, and noise. The same seed makes the same lines everywhere.
//!
//! Frames are put together here digit by digit, without the writing, so that the writing is tried on them too.

use crate::generate::{bad_digit, digits, put_check_right, put_half};
use crate::random::Random;

const MARKETS: &[u8; 2] = b"14";
const EIGHT_DIGITS: u64 = 99_999_999;

/// Kind, version, and the status bits that are free.
const KINDS: [(u8, u64, u8); 2] = [(b'5', 2, 0b001), (b'8', 1, 0b111)];

/// Bytes of a contract, of the header before the body's length, and of a frame around its body.
const FORMS: [usize; 2] = [3, 8];
const HEAD: usize = 11;
const AROUND: usize = 17;

/// The longest body: its frame has 1,024 bytes.
const LONGEST: usize = 1007;

/// Bodies of these lengths are at an edge of a rule.
const EDGES: [usize; 12] = [0, 1, 9, 11, 12, 13, 14, 16, 17, 18, LONGEST - 1, LONGEST];

/// A frame before its outline is put around it.
struct Draft {
    /// Transmission code, kind, time, number and version.
    head: Vec<u8>,
    /// How long the contract is.
    contract: usize,
    body: Vec<u8>,
}

impl Draft {
    /// The frame with its own length, a right check byte and a right end.
    fn bytes(&self) -> Vec<u8> {
        let mut bytes = vec![27];
        bytes.extend(&self.head);
        digits(&mut bytes, self.body.len() as u64, 4);
        bytes.extend(&self.body);
        bytes.extend([0, 0x0D, 0x0A]);
        put_check_right(&mut bytes);
        bytes
    }

    /// Puts bytes over those of the body, as far as it goes.
    fn put(&mut self, place: usize, bytes: &[u8]) {
        for (old, new) in self.body.iter_mut().skip(place).zip(bytes) {
            *old = *new;
        }
    }
}

/// A half to be made bad: its place in a frame with a contract of so many bytes, 0 for any.
#[derive(Clone, Copy)]
struct Spot {
    contract: usize,
    place: usize,
}

/// Each half of the header's time, number and version and of the body's length, and of time and value in both forms.
fn spots() -> Vec<Spot> {
    let mut spots: Vec<Spot> = (6..28).map(|place| Spot { contract: 0, place }).collect();
    for contract in FORMS {
        let time = 2 * (14 + contract);
        spots.extend((time..time + 16).map(|place| Spot { contract, place }));
    }
    spots
}

pub struct Generator {
    random: Random,
    /// The numbers that came last, by market and kind.
    numbers: [[u64; 2]; 2],
    /// What came last, to be repeated.
    last: Vec<u8>,
    spots: Vec<Spot>,
    /// Whose turn it is to be made bad.
    turn: usize,
}

impl Generator {
    pub fn new(seed: u64) -> Generator {
        Generator { random: Random::new(seed), numbers: [[0; 2]; 2], last: Vec::new(), spots: spots(), turn: 0 }
    }

    /// A closed line of so many frames, whole, repeated or damaged, with noise between them. At its end a frame is cut. The
    /// numbers start anew.
    pub fn line(&mut self, frames: usize) -> Vec<u8> {
        self.numbers = [[0; 2]; 2];
        self.last.clear();
        let mut line = Vec::new();
        for _ in 1..frames {
            let piece = match self.random.below(20) {
                0..=8 => self.whole(),
                9 => self.last.clone(),
                10..=16 => self.damaged(),
                17 => self.bad_half(),
                18 => self.around_frames(),
                _ => self.cut(),
            };
            line.extend(&piece);
            self.last = piece;
            if self.random.one_in(8) {
                line.extend(self.noise());
            }
        }
        line.extend(self.cut());
        line
    }

    /// A frame that keeps all the rules.
    pub fn whole(&mut self) -> Vec<u8> {
        self.draft().bytes()
    }

    fn draft(&mut self) -> Draft {
        let contract = self.random.pick(&FORMS);
        self.draft_of(contract)
    }

    /// A frame with a contract of so many bytes.
    fn draft_of(&mut self, contract: usize) -> Draft {
        let (market, kind) = (self.random.within(0..=1), self.random.within(0..=1));
        let number = &mut self.numbers[market][kind];
        *number = match self.random.below(10) {
            0 => self.random.amount(EIGHT_DIGITS),
            _ => (*number + 1).min(EIGHT_DIGITS),
        };
        let number = *number;
        let (byte, version, free) = KINDS[kind];
        let mut head = vec![MARKETS[market], byte];
        digits(&mut head, self.time(), 8);
        digits(&mut head, number, 8);
        digits(&mut head, version, 2);
        let mut body = self.contract(contract);
        digits(&mut body, self.time(), 8);
        digits(&mut body, self.random.amount(EIGHT_DIGITS), 8);
        body.push(self.random.byte() & free);
        Draft { head, contract, body }
    }

    /// A contract that keeps the rule.
    fn contract(&mut self, length: usize) -> Vec<u8> {
        match self.random.below(8) {
            0 => vec![b' '; length],
            1 => (0..length).map(|_| self.random.pick(b" ~\"\\")).collect(),
            2 => (0..length).map(|_| 32 + self.random.below(95) as u8).collect(),
            3 => (0..length).map(|_| self.random.pick(b"0123456789")).collect(),
            _ => {
                let name = self.random.pick(&[b"TXF     ", b"TE      ", b"2330    ", b"IX0001  ", b"XI      "]);
                name[..length].to_vec()
            }
        }
    }

    /// HHMMSScc, a time of day.
    fn time(&mut self) -> u64 {
        let mut part = |count: u64| match self.random.below(6) {
            0 => 0,
            1 => count - 1,
            _ => self.random.below(count),
        };
        ((part(24) * 100 + part(60)) * 100 + part(60)) * 100 + part(100)
    }

    /// HHMMSScc that is no time of day.
    fn wrong_time(&mut self) -> u64 {
        let time = self.time();
        let (hours, minutes, seconds) = (time / 1_000_000, time / 10_000 % 100, time / 100 % 100);
        let above = |random: &mut Random, count: u64| random.pick(&[count, count + 1, 99]);
        let (hours, minutes, seconds) = match self.random.below(4) {
            0 => (above(&mut self.random, 24), minutes, seconds),
            1 => (hours, above(&mut self.random, 60), seconds),
            2 => (hours, minutes, above(&mut self.random, 60)),
            _ => return self.random.pick(&[EIGHT_DIGITS, 99_999_900, 24_000_000, 23_596_000]),
        };
        ((hours * 100 + minutes) * 100 + seconds) * 100 + time % 100
    }

    /// A frame with one to three faults, then perhaps a fault in its outline.
    fn damaged(&mut self) -> Vec<u8> {
        let mut draft = self.draft();
        for _ in 0..self.random.pick(&[0, 1, 1, 1, 1, 1, 2, 2, 3]) {
            self.damage(&mut draft);
        }
        let mut bytes = draft.bytes();
        let any = self.random.within(0..=bytes.len() - 1);
        // the body's length that the frame's bytes claim, and the place of its check byte
        let (claim, check) = (12..14, bytes.len() - 3);
        match self.random.below(16) {
            0 => bytes[any] ^= 1 << self.random.below(8),
            1 => bytes[any] = self.random.byte(),
            2 | 3 => {
                bytes[any] = self.random.byte();
                put_check_right(&mut bytes);
            }
            4 => {
                let other = self.random.within(0..=LONGEST);
                let edge = self.random.pick(&EDGES);
                let length = self.random.pick(&[LONGEST + 1, LONGEST + 2, 9999, 1024, edge, other]);
                let mut other = Vec::new();
                digits(&mut other, length as u64, 4);
                bytes[claim].copy_from_slice(&other);
                put_check_right(&mut bytes);
            }
            5 => {
                let place = self.random.within(claim.start..=claim.end - 1);
                bytes[place] = bad_digit(&mut self.random, bytes[place]);
                put_check_right(&mut bytes);
            }
            6 => bytes[check] ^= self.random.pick(&[1, 27, 0x80, 0xFF]),
            7 => {
                let place = self.random.within(check + 1..=check + 2);
                bytes[place] = self.random.pick(&[0x0A, 0x0D, 0x0B, 0, 27]);
            }
            _ => {}
        }
        bytes
    }

    /// One fault in the header or the body; its check byte will be right.
    fn damage(&mut self, draft: &mut Draft) {
        let other = self.random.byte();
        let contract = draft.contract;
        match self.random.below(13) {
            0 => {
                let place = self.random.within(2..=HEAD - 1);
                draft.head[place] = bad_digit(&mut self.random, draft.head[place]);
            }
            1 => {
                let bad = bad_digit(&mut self.random, other);
                draft.put(contract + self.random.within(0..=7), &[bad]);
            }
            2 => draft.head[0] = self.random.pick(&[b'0', b'2', b'3', b'5', b'8', 0x01, 0x04, other]),
            3 => draft.head[1] = self.random.pick(&[b'1', b'3', b'4', b'6', b'7', b'9', 0x05, 0x08, other]),
            4 => draft.head[10] = self.random.pick(&[0x00, 0x01, 0x02, 0x03, 0x10, 0x11, 0x20, 0x22]),
            5 => {
                // the other kind, perhaps with its version; the status bits stay
                let (byte, version, _) = KINDS[usize::from(draft.head[1] == b'5')];
                draft.head[1] = byte;
                if self.random.one_in(2) {
                    draft.head[10] = version as u8;
                }
            }
            6 => self.damage_length(draft),
            7 => {
                let mut time = Vec::new();
                digits(&mut time, self.wrong_time(), 8);
                draft.head[2..6].copy_from_slice(&time);
            }
            8 => {
                let mut time = Vec::new();
                digits(&mut time, self.wrong_time(), 8);
                draft.put(contract, &time);
            }
            9 => {
                let place = self.random.within(0..=contract - 1);
                draft.put(place, &[self.random.pick(&[31, 127, 0, 255, 27, 128, 13])]);
            }
            10 => draft.put(contract + 8, &[1 << self.random.below(8)]),
            11 => draft.put(contract + 8, &[other]),
            _ => {
                if !draft.body.is_empty() {
                    let place = self.random.within(0..=draft.body.len() - 1);
                    draft.body[place] = other;
                }
            }
        }
    }

    /// A body of another length, so that the whole frame has it.
    fn damage_length(&mut self, draft: &mut Draft) {
        let other = self.random.within(0..=LONGEST);
        let length = match self.random.below(4) {
            0 => other,
            1 => draft.body.len() + self.random.pick(&[1, 2, 5]),
            2 => draft.body.len().saturating_sub(self.random.pick(&[1, 2, 5])),
            _ => self.random.pick(&EDGES),
        };
        let filling = self.random.pick(&[0, b' ', 27, 0x99]);
        draft.body.resize(length.min(LONGEST), filling);
    }

    /// A frame with a bad half, the next one in turn, and perhaps with further ones behind it and a wrong contract.
    fn bad_half(&mut self) -> Vec<u8> {
        let spot = self.spots[self.turn % self.spots.len()];
        self.turn += 1;
        let contract = if spot.contract == 0 { self.random.pick(&FORMS) } else { spot.contract };
        let mut draft = self.draft_of(contract);
        if self.random.one_in(3) {
            draft.put(self.random.within(0..=contract - 1), &[self.random.pick(&[31, 127, 0, 255, 27])]);
        }
        let mut bytes = draft.bytes();
        put_half(&mut bytes, spot.place, 10 + self.random.below(6) as u8);
        // time and value of the body, the status byte left out
        let last = 2 * bytes.len() - 8 - 1;
        if self.random.one_in(3) && spot.place < last {
            let first = spot.place.max(2 * (14 + contract) - 1) + 1;
            put_half(&mut bytes, self.random.within(first..=last), 10 + self.random.below(6) as u8);
        }
        put_check_right(&mut bytes);
        bytes
    }

    /// A frame that is cut anywhere.
    fn cut(&mut self) -> Vec<u8> {
        let mut bytes = self.whole();
        let length = self.random.within(1..=bytes.len() - 1);
        bytes.truncate(length);
        bytes
    }

    /// A false frame with whole ones inside its claimed length; its end and check byte may be right.
    fn around_frames(&mut self) -> Vec<u8> {
        let body = self.random.within(0..=LONGEST);
        let length = body + AROUND;
        let mut bytes = vec![27];
        bytes.extend(self.draft().head);
        digits(&mut bytes, body as u64, 4);
        while bytes.len() < length {
            let inner = if self.random.one_in(4) { self.noise() } else { self.whole() };
            bytes.extend(inner);
        }
        match self.random.below(4) {
            0 => {}
            1 => bytes.truncate(length),
            right => {
                bytes.truncate(length);
                bytes[length - 2..].copy_from_slice(&[0x0D, 0x0A]);
                if right == 3 {
                    put_check_right(&mut bytes);
                }
            }
        }
        bytes
    }

    /// Bytes that are no frame, as far as chance goes.
    fn noise(&mut self) -> Vec<u8> {
        let most = match self.random.below(2000) {
            0 => 200_000, // more than any buffer
            1..=49 => 1500,
            _ => 30,
        };
        let length = self.random.within(1..=most);
        match self.random.below(6) {
            0 => (0..length).map(|_| self.random.byte()).collect(),
            1 => (0..length).map(|_| self.random.pick(&[27, 27, 0, 0x12, 0x17, b'1', b'5', 0x0D, 0x0A])).collect(),
            2 => vec![27; length],
            3 => {
                let mut bytes = vec![27];
                bytes.extend((0..HEAD).map(|_| self.random.byte()));
                digits(&mut bytes, self.random.below(1100), 4);
                bytes.truncate(length);
                bytes
            }
            4 => [0x0D, 0x0A].repeat(length),
            _ => vec![b'.'; length],
        }
    }
}
