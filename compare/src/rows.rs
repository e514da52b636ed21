//! A board in both forms: the library's heads and cells, and the second program's rows.
//!
//! A head is eight bytes, the lowest first: code, limit, status. A row's 26 cells are its total, the last trade, five bids and
//! five asks, each as price and quantity, a byte that says which of them there are, and the time, its low half first. Bit 0 of
//! that byte, which in a quote's says that levels are not shown, counts for nothing.

use second::board::{Row, Side, ROWS};
use second::six::Pair;
use second::units::{Price, Quantity};
use trivsome::Board;

use crate::same;

pub const PER_ROW: usize = 26;
pub const CELLS: usize = PER_ROW * ROWS;

/// The cells of a row that are no amounts.
pub const SHOWN: usize = 23;
pub const TIME: usize = 24;

/// Heads and cells, mostly as many as a board has.
#[derive(Clone, PartialEq, Eq)]
pub struct Numbers {
    pub heads: Vec<u64>,
    pub cells: Vec<u32>,
}

impl Numbers {
    pub fn of(board: &Board) -> Numbers {
        Numbers { heads: board.heads().to_vec(), cells: board.cells().to_vec() }
    }

    /// The board that they are, if they are as many as one has.
    pub fn board(&self) -> Option<Board> {
        Some(Board::from_lists(self.heads[..].try_into().ok()?, self.cells[..].try_into().ok()?))
    }

    /// So many rows, of zeros where there are no numbers.
    pub fn rows(&self, count: usize) -> Vec<Row> {
        let head = |place: usize| self.heads.get(place).copied().unwrap_or(0);
        let cells = |place: usize| self.cells.get(PER_ROW * place..PER_ROW * (place + 1)).unwrap_or(&[0; PER_ROW]);
        (0..count).map(|place| row_of(head(place), cells(place))).collect()
    }

    /// The cells of a row.
    pub fn cells(&mut self, place: usize) -> &mut [u32] {
        &mut self.cells[PER_ROW * place..PER_ROW * (place + 1)]
    }

    /// Puts the numbers of a row at a place, as a call leaves them.
    pub fn put(&mut self, place: usize, row: &Row) {
        let [a, b, c, d, e, f] = row.code;
        self.heads[place] = u64::from_le_bytes([a, b, c, d, e, f, row.limit, row.status]);
        let amounts = same::row(row);
        let pairs = [amounts.trade].into_iter().chain(amounts.bids).chain(amounts.asks);
        let amounts = [amounts.total.0].into_iter().chain(pairs.flat_map(|pair| [pair.price.0, pair.quantity.0]));
        let others = [u32::from(same::shown(row)), row.time as u32, (row.time >> 32) as u32];
        for (cell, number) in self.cells(place).iter_mut().zip(amounts.chain(others)) {
            *cell = number;
        }
    }

    /// These are the numbers that were expected, or the first that is another is told.
    pub fn expect(&self, what: &str, expected: &Numbers) -> Result<(), String> {
        if self == expected {
            return Ok(());
        }
        let other = self.heads.iter().zip(&expected.heads).position(|(one, other)| one != other);
        if let Some(place) = other {
            let (head, expected) = (self.heads[place], expected.heads[place]);
            return Err(format!("{what}: the head of row {place} is {head:#018x} and not {expected:#018x}"));
        }
        let other = self.cells.iter().zip(&expected.cells).position(|(one, other)| one != other);
        if let Some(place) = other {
            let (cell, expected) = (self.cells[place], expected.cells[place]);
            let (row, name) = (place / PER_ROW, name(place % PER_ROW));
            return Err(format!("{what}: of row {row} the {name} is {cell} and not {expected}"));
        }
        Err(format!("{what}: the lists have other lengths"))
    }
}

/// What a cell of a row is.
fn name(cell: usize) -> String {
    let unit = if cell % 2 == 1 { "price" } else { "quantity" };
    match cell {
        0 => "total".into(),
        1 | 2 => format!("last trade's {unit}"),
        3..=12 => format!("{unit} of bid {}", (cell - 1) / 2),
        13..SHOWN => format!("{unit} of ask {}", (cell - 11) / 2),
        SHOWN => "cell of what is shown".into(),
        TIME => "low half of the time".into(),
        _ => "high half of the time".into(),
    }
}

/// The row of any head and cells.
fn row_of(head: u64, cells: &[u32]) -> Row {
    let [code @ .., limit, status] = head.to_le_bytes();
    let pair = |at: usize| Pair { price: Price(cells[at]), quantity: Quantity(cells[at + 1]) };
    let side = |count: u8, first: usize| Side {
        count: usize::from(count & 7),
        levels: std::array::from_fn(|level| pair(first + 2 * level)),
    };
    let shown = cells[SHOWN] as u8;
    Row {
        code,
        time: u64::from(cells[TIME]) | u64::from(cells[TIME + 1]) << 32,
        limit,
        status,
        total: Quantity(cells[0]),
        trade: (shown & 0x80 != 0).then(|| pair(1)),
        bids: side(shown >> 4, 3),
        asks: side(shown >> 1, 13),
    }
}

/// Numbers that are lent out of a longer list, so that what stands around them is seen to stay.
pub struct Lent {
    around: Numbers,
}

const AROUND: u32 = 0xA5A5_A5A5;

impl Lent {
    /// The numbers of a board as so many heads and cells, with others where it has none.
    pub fn new(numbers: &Numbers, heads: usize, cells: usize) -> Lent {
        let mut around = Numbers {
            heads: vec![u64::from(AROUND) << 32 | u64::from(AROUND); heads + 2],
            cells: vec![AROUND; cells + 2],
        };
        let (heads, cells) = (heads.min(numbers.heads.len()), cells.min(numbers.cells.len()));
        around.heads[1..=heads].copy_from_slice(&numbers.heads[..heads]);
        around.cells[1..=cells].copy_from_slice(&numbers.cells[..cells]);
        Lent { around }
    }

    pub fn lists(&mut self) -> (&mut [u64], &mut [u32]) {
        let (heads, cells) = (self.around.heads.len() - 1, self.around.cells.len() - 1);
        (&mut self.around.heads[1..heads], &mut self.around.cells[1..cells])
    }

    /// What is lent, without what stands around it.
    pub fn numbers(&mut self) -> Numbers {
        let (heads, cells) = self.lists();
        Numbers { heads: heads.to_vec(), cells: cells.to_vec() }
    }

    /// What is lent is as expected, and what stands around it as it was.
    pub fn expect(&mut self, what: &str, expected: &Numbers) -> Result<(), String> {
        self.numbers().expect(what, expected)?;
        let other = Lent::new(expected, expected.heads.len(), expected.cells.len());
        if self.around == other.around {
            Ok(())
        } else {
            Err(format!("{what}: numbers beside the lent lists have changed"))
        }
    }
}
