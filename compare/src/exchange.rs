//! The exchanges, each with the library's calls on its lines, and what their messages tell of a frame.

use second::derivatives::Derivatives2015;
use second::exchange::{Exchange, Stock};
use trivsome::{raw, Line, Moves, Tally, TooMuch};

/// A message by its frame's figures.
pub trait Told {
    fn format(&self) -> u8;
    fn number(&self) -> u32;
}

impl Told for second::Message {
    fn format(&self) -> u8 {
        self.format()
    }

    fn number(&self) -> u32 {
        self.number()
    }
}

impl Told for second::derivatives::Message {
    fn format(&self) -> u8 {
        self.format()
    }

    fn number(&self) -> u32 {
        self.number()
    }
}

/// The library's walk over a line of an exchange of the second program.
pub trait Walked: Exchange<Message: Told> {
    fn moves(bytes: &[u8], line: Line) -> Moves<'_>;
    fn move_at(bytes: &[u8], place: usize, closed: bool) -> u64;
    fn walk(tally: &mut Tally, bytes: &[u8], line: Line) -> Result<(), TooMuch>;
    fn walk_figures(figures: &mut [u64; 4], bytes: &[u8], closed: bool) -> u64;
}

impl Walked for Stock {
    fn moves(bytes: &[u8], line: Line) -> Moves<'_> {
        Moves::new(bytes, line)
    }

    fn move_at(bytes: &[u8], place: usize, closed: bool) -> u64 {
        raw::move_at(bytes, place, closed)
    }

    fn walk(tally: &mut Tally, bytes: &[u8], line: Line) -> Result<(), TooMuch> {
        tally.walk(bytes, line)
    }

    fn walk_figures(figures: &mut [u64; 4], bytes: &[u8], closed: bool) -> u64 {
        raw::walk(figures, bytes, closed)
    }
}

impl Walked for Derivatives2015 {
    fn moves(bytes: &[u8], line: Line) -> Moves<'_> {
        Moves::derivatives(bytes, line)
    }

    fn move_at(bytes: &[u8], place: usize, closed: bool) -> u64 {
        raw::derivatives_move_at(bytes, place, closed)
    }

    fn walk(tally: &mut Tally, bytes: &[u8], line: Line) -> Result<(), TooMuch> {
        tally.walk_derivatives(bytes, line)
    }

    fn walk_figures(figures: &mut [u64; 4], bytes: &[u8], closed: bool) -> u64 {
        raw::derivatives_walk(figures, bytes, closed)
    }
}
