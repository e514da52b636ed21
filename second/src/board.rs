//! The board of last quotes: a row to a stock, 256 lent rows in all. What a closed line leaves on a clear board is told as a
//! JSON object a line, without blanks outside strings.
//!
//! The rows are lent and their fields are open. Only their count is looked at first; whatever they hold, every call goes by
//! the codes alone.

use std::fmt;
use std::io::{self, Read, Write};

use crate::messages::{pairs_keys, Long, Text};
use crate::pieces::each_move;
use crate::reading::Message;
use crate::six::{Pair, Quote, MOST_LEVELS};
use crate::units::{is_code, Code, Price, Quantity, CODE_ZERO};

/// How many rows a board has.
pub const ROWS: usize = 256;

/// The code of a free row, which no stock has.
pub const NO_CODE: Code = [0; 6];

/// A board on which every row is free.
pub static CLEAR: [Row; ROWS] = [Row::FREE; ROWS];

/// One side of a row.
#[derive(Clone, Copy, Debug, PartialEq, Eq)]
pub struct Side {
    pub count: usize,
    /// Best first; zero behind the count.
    pub levels: [Pair; MOST_LEVELS],
}

/// What the messages of a stock said last.
#[derive(Clone, Copy, Debug, PartialEq, Eq)]
pub struct Row {
    pub code: Code,
    /// HHMMSSffffff.
    pub time: u64,
    pub limit: u8,
    pub status: u8,
    pub total: Quantity,
    /// The last trade, `None` before the first.
    pub trade: Option<Pair>,
    pub bids: Side,
    pub asks: Side,
}

#[derive(Clone, Copy, Debug, PartialEq, Eq)]
pub enum Refusal {
    /// The message breaks a field's rule or range.
    Message = 14,
    /// There are not 256 rows.
    Rows = 50,
    /// No row has the code, or none in use is at the place.
    NoRow = 51,
    /// The code has no row, and no row is free.
    Full = 52,
}

impl Refusal {
    /// The number in the rules.
    pub fn number(self) -> u8 {
        self as u8
    }
}

impl Side {
    pub const EMPTY: Side = Side { count: 0, levels: [Pair { price: Price(0), quantity: Quantity(0) }; MOST_LEVELS] };

    /// The levels that are listed, best first.
    #[inline]
    pub fn levels(&self) -> &[Pair] {
        &self.levels[..self.count.min(MOST_LEVELS)]
    }

    /// Lists these levels and no others.
    #[inline]
    fn list(&mut self, levels: &[Pair]) {
        *self = Side { count: levels.len(), ..Side::EMPTY };
        self.levels[..levels.len()].copy_from_slice(levels);
    }
}

impl Row {
    pub const FREE: Row = Row {
        code: NO_CODE,
        time: 0,
        limit: 0,
        status: 0,
        total: Quantity(0),
        trade: None,
        bids: Side::EMPTY,
        asks: Side::EMPTY,
    };

    #[inline]
    pub fn is_free(&self) -> bool {
        self.code == NO_CODE
    }

    /// Takes over what a message says. Without a trade pair the last trade stays, and sides that are not shown stay too.
    #[inline]
    fn change(&mut self, quote: &Quote) {
        self.code = quote.code;
        self.time = quote.time;
        self.limit = quote.limit;
        self.status = quote.status;
        self.total = quote.total;
        self.trade = quote.trade().or(self.trade);
        if let (Some(bids), Some(asks)) = (quote.bids(), quote.asks()) {
            self.bids.list(bids);
            self.asks.list(asks);
        }
    }
}

/// Makes every row free and empty, whatever it holds.
pub fn clear(rows: &mut [Row]) -> Result<(), Refusal> {
    all_mut(rows)?.fill(Row::FREE);
    Ok(())
}

/// Hands a message to its stock's row, or to the first free one. The day's last frame changes none.
pub fn take(rows: &mut [Row], quote: &Quote) -> Result<(), Refusal> {
    let rows = all_mut(rows)?;
    if !quote.keeps_rules() {
        return Err(Refusal::Message);
    }
    if quote.ends_the_day() {
        return Ok(());
    }
    if let Some(place) = find(rows, &quote.code) {
        rows[place].change(quote);
    } else {
        let place = find(rows, &NO_CODE).ok_or(Refusal::Full)?;
        rows[place] = Row::FREE;
        rows[place].change(quote);
    }
    Ok(())
}

/// The first row with a code, if a stock can have that code.
pub fn ask<'a>(rows: &'a [Row], code: &Code) -> Result<&'a Row, Refusal> {
    let rows = all(rows)?;
    if !is_code(code) || *code == CODE_ZERO {
        return Err(Refusal::NoRow);
    }
    find(rows, code).map(|place| &rows[place]).ok_or(Refusal::NoRow)
}

/// The row at a place, if it is in use; the first has place 0.
pub fn row_at(rows: &[Row], place: usize) -> Result<&Row, Refusal> {
    all(rows)?.get(place).filter(|row| !row.is_free()).ok_or(Refusal::NoRow)
}

/// How many rows are in use.
pub fn in_use(rows: &[Row]) -> Result<usize, Refusal> {
    Ok(all(rows)?.iter().filter(|row| !row.is_free()).count())
}

/// The place of the first row with a code.
#[inline]
fn find(rows: &[Row; ROWS], code: &Code) -> Option<usize> {
    rows.iter().position(|row| row.code == *code)
}

#[inline]
fn all(rows: &[Row]) -> Result<&[Row; ROWS], Refusal> {
    rows.try_into().map_err(|_| Refusal::Rows)
}

#[inline]
fn all_mut(rows: &mut [Row]) -> Result<&mut [Row; ROWS], Refusal> {
    rows.try_into().map_err(|_| Refusal::Rows)
}

/// Reads the input to its end and writes the rows that its messages leave, and how many messages were refused.
pub fn tell<R: Read, W: Write>(input: R, mut output: W) -> io::Result<()> {
    let mut rows = CLEAR;
    let mut refused: u64 = 0;
    each_move(input, |_, answer, _| {
        if let Some(Message::Six(quote)) = answer.message() {
            match take(&mut rows, quote) {
                Err(Refusal::Full) => refused += 1,
                answer => answer.expect("a message that was read is refused with 52 alone"),
            }
        }
        Ok(())
    })?;
    for row in rows.iter().filter(|row| !row.is_free()) {
        writeln!(output, "{row}")?;
    }
    if refused > 0 {
        writeln!(output, "{{\"refused\":{},\"count\":{refused}}}", Refusal::Full.number())?;
    }
    output.flush()
}

/// A row as a JSON object.
impl fmt::Display for Row {
    fn fmt(&self, f: &mut fmt::Formatter) -> fmt::Result {
        write!(f, "{{\"code\":{},\"time\":{},", Text(&self.code), Long(self.time))?;
        write!(f, "\"limit\":{},\"status\":{},\"total\":{},", self.limit, self.status, self.total.0)?;
        pairs_keys(f, self.trade, Some(self.bids.levels()), Some(self.asks.levels()))?;
        f.write_str("}")
    }
}
