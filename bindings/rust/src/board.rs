//! The board of last quotes: a row to a stock, with what the quotes of that stock said last.

use std::fmt;
use std::iter::FusedIterator;

use crate::quote::{used, Quote};
use crate::raw;
use crate::units::{Code, Pair, Quantity};

/// A board of 256 rows, in the order in which the codes of their stocks first came. No call copies it.
#[derive(Clone, PartialEq, Eq, Hash)]
pub struct Board {
    heads: Box<[u64; Board::ROWS]>,
    cells: Box<[u32; Board::CELLS]>,
}

/// What the quotes of a stock said last.
///
/// The order of the fields is that of the library's numbers, so that a row is read straight into them.
#[derive(Clone, Copy, Debug, Default, PartialEq, Eq, Hash)]
#[repr(C)]
pub struct Row {
    /// HHMMSS and six digits of fraction.
    pub time: u64,
    /// The quantity traded so far.
    pub total: Quantity,
    /// The last trade, if the reveal byte shows one.
    pub trade: Pair,
    /// Best first.
    pub bids: [Pair; 5],
    /// Best first.
    pub asks: [Pair; 5],
    /// The stock.
    pub code: Code,
    /// Which pairs there are: the last trade in bit 7, how many bids in bits 4 to 6, how many asks in bits 1 to 3. Bit 0 is
    /// clear: a row has the sides that were shown last.
    pub reveal: u8,
    /// The limit byte of the last quote.
    pub limit: u8,
    /// The status byte of the last quote.
    pub status: u8,
}

/// Why a quote was not taken. The board is as it was.
#[derive(Clone, Copy, Debug, PartialEq, Eq, Hash)]
pub enum NotTaken {
    /// 14: the quote breaks a field's rule or range, and could not be written.
    Message,
    /// 52: all rows are those of other stocks.
    Full,
}

impl NotTaken {
    /// The number in the rules.
    #[inline]
    pub fn number(self) -> u8 {
        match self {
            NotTaken::Message => 14,
            NotTaken::Full => 52,
        }
    }
}

impl fmt::Display for NotTaken {
    fn fmt(&self, f: &mut fmt::Formatter) -> fmt::Result {
        f.write_str(match self {
            NotTaken::Message => "14: the message breaks a rule",
            NotTaken::Full => "52: all rows are those of other stocks",
        })
    }
}

impl std::error::Error for NotTaken {}

impl Row {
    /// The last trade, if some quote of the stock had one.
    #[inline]
    pub fn trade(&self) -> Option<Pair> {
        (self.reveal & 0x80 != 0).then_some(self.trade)
    }

    /// The bid levels of the last quote that showed its levels, best first; none before there was one.
    #[inline]
    pub fn bids(&self) -> &[Pair] {
        used(&self.bids, self.reveal >> 4)
    }

    /// The ask levels, likewise.
    #[inline]
    pub fn asks(&self) -> &[Pair] {
        used(&self.asks, self.reveal >> 1)
    }
}

impl Default for Board {
    /// The clear board.
    #[inline]
    fn default() -> Board {
        Board { heads: Box::new([0; Board::ROWS]), cells: Box::new([0; Board::CELLS]) }
    }
}

impl Board {
    /// How many rows a board has.
    pub const ROWS: usize = 256;

    /// The cells that they are kept in, beside a head for each.
    pub const CELLS: usize = 26 * Board::ROWS;

    /// The clear board.
    #[inline]
    pub fn new() -> Board {
        Board::default()
    }

    /// A board whose numbers were kept somewhere. They may be any.
    #[inline]
    pub fn from_lists(heads: &[u64; Board::ROWS], cells: &[u32; Board::CELLS]) -> Board {
        Board { heads: Box::new(*heads), cells: Box::new(*cells) }
    }

    /// The heads, to be kept somewhere with the cells.
    #[inline]
    pub fn heads(&self) -> &[u64; Board::ROWS] {
        &self.heads
    }

    /// The cells.
    #[inline]
    pub fn cells(&self) -> &[u32; Board::CELLS] {
        &self.cells
    }

    /// Makes every row free.
    #[inline]
    pub fn clear(&mut self) {
        raw::board_clear(&mut self.heads[..], &mut self.cells[..]);
    }

    /// Takes a quote into the row of its code, or else into the first free one. A quote without a trade leaves the last
    /// trade as it was, and one whose levels are not shown leaves both sides as they were; the day's last frame changes no
    /// row. What counts is the order of the calls, not the times.
    #[inline]
    pub fn take(&mut self, quote: &Quote) -> Result<(), NotTaken> {
        match raw::board_take(&mut self.heads[..], &mut self.cells[..], quote) {
            0 => Ok(()),
            14 => Err(NotTaken::Message),
            _ => Err(NotTaken::Full),
        }
    }

    /// The row of a code. There is none, 51, of a code without a quote.
    #[inline]
    pub fn ask(&self, code: Code) -> Option<Row> {
        let mut row = Row::default();
        (raw::board_ask(&self.heads[..], &self.cells[..], &code.0, &mut row) == 0).then_some(row)
    }

    /// The row at a place; the stock that came first has place 0. There is none, 51, where the row is free.
    #[inline]
    pub fn row(&self, place: usize) -> Option<Row> {
        let mut row = Row::default();
        (raw::board_row(&self.heads[..], &self.cells[..], place, &mut row) == 0).then_some(row)
    }

    /// How many rows are in use.
    #[inline]
    pub fn rows(&self) -> usize {
        (raw::board_rows(&self.heads[..], &self.cells[..]) >> 8) as usize
    }

    /// The rows that are in use, by their places.
    #[inline]
    pub fn iter(&self) -> Rows<'_> {
        Rows { board: self, place: 0 }
    }
}

impl fmt::Debug for Board {
    fn fmt(&self, f: &mut fmt::Formatter) -> fmt::Result {
        f.debug_list().entries(self).finish()
    }
}

/// The rows of a board that are in use, by their places.
#[derive(Clone, Debug)]
pub struct Rows<'a> {
    board: &'a Board,
    place: usize,
}

impl Iterator for Rows<'_> {
    type Item = Row;

    #[inline]
    fn next(&mut self) -> Option<Row> {
        while self.place < Board::ROWS {
            let row = self.board.row(self.place);
            self.place += 1;
            if row.is_some() {
                return row;
            }
        }
        None
    }
}

impl FusedIterator for Rows<'_> {}

impl<'a> IntoIterator for &'a Board {
    type Item = Row;
    type IntoIter = Rows<'a>;

    #[inline]
    fn into_iter(self) -> Rows<'a> {
        self.iter()
    }
}
