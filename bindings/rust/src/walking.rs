//! A line walked: its moves, and its tally.

use std::fmt;

use crate::outcome::{Answer, Outcome};
use crate::raw;

/// Whether more bytes may come behind a line.
#[derive(Clone, Copy, Debug, PartialEq, Eq, Hash)]
pub enum Line {
    /// They may.
    Open,
    /// They will not.
    Closed,
}

impl Line {
    #[inline]
    fn is_closed(self) -> bool {
        self == Line::Closed
    }
}

/// One move of a walk. The message of an accepted frame is read at its place.
#[derive(Clone, Copy, Debug, PartialEq, Eq, Hash)]
pub struct Move {
    /// Its place.
    pub at: usize,
    /// How many bytes it goes past.
    pub bytes: usize,
    /// What the reading said there, with the place of a bad digit.
    pub answer: Answer,
}

/// The exchange whose frames stand on a line.
#[derive(Clone, Copy, Debug)]
enum Exchange {
    Stock,
    Derivatives,
}

/// The moves over a line, from its first byte on. They end at the line's end or, on an open line, where the rest waits.
#[derive(Clone, Debug)]
pub struct Moves<'a> {
    exchange: Exchange,
    line: &'a [u8],
    at: usize,
    closed: bool,
}

impl<'a> Moves<'a> {
    /// The moves over these bytes.
    #[inline]
    pub fn new(bytes: &'a [u8], line: Line) -> Moves<'a> {
        Moves { exchange: Exchange::Stock, line: bytes, at: 0, closed: line.is_closed() }
    }

    /// The moves over these bytes of the derivatives exchange.
    #[inline]
    pub fn derivatives(bytes: &'a [u8], line: Line) -> Moves<'a> {
        Moves { exchange: Exchange::Derivatives, ..Moves::new(bytes, line) }
    }

    /// The bytes that no move has gone past yet; after the last move, those that wait.
    #[inline]
    pub fn rest(&self) -> &'a [u8] {
        self.line.get(self.at..).unwrap_or(&[])
    }
}

impl Iterator for Moves<'_> {
    type Item = Move;

    #[inline]
    fn next(&mut self) -> Option<Move> {
        let outcome = Outcome::of(match self.exchange {
            Exchange::Stock => raw::move_at(self.line, self.at, self.closed),
            Exchange::Derivatives => raw::derivatives_move_at(self.line, self.at, self.closed),
        });
        let bytes = outcome.length();
        if bytes == 0 {
            return None;
        }
        let at = self.at;
        self.at += bytes;
        Some(Move { at, bytes, answer: outcome.answer() })
    }
}

/// The bytes of a line, or of all lines of a day, by what became of them.
#[derive(Clone, Copy, Debug, Default, PartialEq, Eq, Hash)]
pub struct Tally {
    /// Those in accepted frames.
    pub accepted: u64,
    /// Those in refused frames.
    pub refused: u64,
    /// Those that are in no frame.
    pub skipped: u64,
    /// Those at the end of an open line that may begin a frame.
    pub waiting: u64,
}

/// 16: one of the first three figures and the line's length are too much together. The tally is as it was.
#[derive(Clone, Copy, Debug, PartialEq, Eq, Hash)]
pub struct TooMuch;

impl TooMuch {
    /// The number in the rules.
    pub const NUMBER: u8 = 16;
}

impl fmt::Display for TooMuch {
    fn fmt(&self, f: &mut fmt::Formatter) -> fmt::Result {
        f.write_str("16: the tally cannot hold the line's bytes")
    }
}

impl std::error::Error for TooMuch {}

impl Tally {
    /// Walks a line and moves the tally on: the first three figures grow, the waiting figure is replaced.
    #[inline]
    pub fn walk(&mut self, bytes: &[u8], line: Line) -> Result<(), TooMuch> {
        self.moved_on(|figures| raw::walk(figures, bytes, line.is_closed()))
    }

    /// The same over a line of the derivatives exchange.
    #[inline]
    pub fn walk_derivatives(&mut self, bytes: &[u8], line: Line) -> Result<(), TooMuch> {
        self.moved_on(|figures| raw::derivatives_walk(figures, bytes, line.is_closed()))
    }

    /// By a call on its four figures.
    #[inline]
    fn moved_on(&mut self, call: impl Fn(&mut [u64; 4]) -> u64) -> Result<(), TooMuch> {
        let mut figures = [self.accepted, self.refused, self.skipped, self.waiting];
        let answer = call(&mut figures);
        let [accepted, refused, skipped, waiting] = figures;
        *self = Tally { accepted, refused, skipped, waiting };
        if answer == 0 {
            Ok(())
        } else {
            Err(TooMuch)
        }
    }
}
