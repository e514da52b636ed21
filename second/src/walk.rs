//! The walk over a line, and its tally of bytes.

use std::marker::PhantomData;

use crate::exchange::{Exchange, Stock};
use crate::reading::{Answer, Message, NoFrame};

/// Whether more bytes may come behind the line.
#[derive(Clone, Copy, Debug, PartialEq, Eq)]
pub enum Line {
    Open,
    Closed,
}

/// One move of a walk: the answer at a place, and how many bytes it takes.
#[derive(Clone, Copy, Debug, PartialEq, Eq)]
pub struct Move<M = Message> {
    pub place: usize,
    pub answer: Answer<M>,
    pub bytes: usize,
    pub kind: Kind,
}

/// What a move's bytes are counted as.
#[derive(Clone, Copy, Debug, PartialEq, Eq)]
pub enum Kind {
    Accepted,
    Refused,
    Skipped,
    Waiting,
}

/// The moves over a line, from its first byte to its end. On an open line answer 2 makes the last move, whose bytes are all
/// the rest.
pub struct Walk<'a, E = Stock> {
    bytes: &'a [u8],
    line: Line,
    place: usize,
    exchange: PhantomData<E>,
}

/// The walk over a line of the stock exchange.
pub fn walk(bytes: &[u8], line: Line) -> Walk<'_> {
    walk_of(bytes, line)
}

/// The same over a line of any exchange.
pub fn walk_of<E: Exchange>(bytes: &[u8], line: Line) -> Walk<'_, E> {
    Walk { bytes, line, place: 0, exchange: PhantomData }
}

impl<E: Exchange> Iterator for Walk<'_, E> {
    type Item = Move<E::Message>;

    fn next(&mut self) -> Option<Self::Item> {
        let place = self.place;
        let rest = &self.bytes[place..];
        if rest.is_empty() {
            return None;
        }
        let answer = E::read(rest);
        let (bytes, kind) = match answer {
            Answer::Accepted { length, .. } => (length, Kind::Accepted),
            Answer::Refused { length, .. } => (length, Kind::Refused),
            Answer::NoFrame { why: NoFrame::TooFewBytes, .. } if self.line == Line::Open => (rest.len(), Kind::Waiting),
            Answer::NoFrame { .. } => (1, Kind::Skipped),
        };
        self.place += bytes;
        Some(Move { place, answer, bytes, kind })
    }
}

/// Bytes in accepted frames, in refused frames, skipped, and waiting.
#[derive(Clone, Copy, Debug, Default, PartialEq, Eq)]
pub struct Tally {
    pub accepted: u64,
    pub refused: u64,
    pub skipped: u64,
    pub waiting: u64,
}

/// 16: one of the first three figures and the line's length are too much together.
#[derive(Clone, Copy, Debug, PartialEq, Eq)]
pub struct TooMuch;

impl TooMuch {
    /// The number in the rules.
    pub const NUMBER: u8 = 16;
}

impl Tally {
    /// Walks a line of the stock exchange and moves the tally on: the first three figures grow, the waiting figure is replaced.
    pub fn walk(&mut self, bytes: &[u8], line: Line) -> Result<(), TooMuch> {
        self.walk_of::<Stock>(bytes, line)
    }

    /// The same over a line of any exchange.
    pub fn walk_of<E: Exchange>(&mut self, bytes: &[u8], line: Line) -> Result<(), TooMuch> {
        let length = bytes.len() as u64;
        for figure in [self.accepted, self.refused, self.skipped] {
            figure.checked_add(length).ok_or(TooMuch)?;
        }
        self.waiting = 0;
        for step in walk_of::<E>(bytes, line) {
            let figure = match step.kind {
                Kind::Accepted => &mut self.accepted,
                Kind::Refused => &mut self.refused,
                Kind::Skipped => &mut self.skipped,
                Kind::Waiting => &mut self.waiting,
            };
            *figure += step.bytes as u64;
        }
        Ok(())
    }
}
