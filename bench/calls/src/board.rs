//! A full board of 256 stocks: messages of 11 pairs taken, of any, and of the trade alone, which keep the levels of their rows; of
//! stocks whose codes differ in the first four bytes, and in the last two alone; a message of a stock too many refused, and
//! rows asked for.

use std::hint::black_box;

use compare::same;
use second::board::{self, Refusal, CLEAR, ROWS};
use second::random::Random;
use second::six::Quote;
use second::units::Code;
use trivsome::{Board, NotTaken};

use crate::kinds;
use crate::timing::{both, Effort, Row};

const PART: &str = "board";

/// How many messages there are in a row of any stocks, and of one stock.
const ANY: usize = 4 * ROWS;
const ONE: usize = 128;

/// A trade and five levels a side: a message changes all of its row.
fn all_pairs(_: &mut Random) -> u8 {
    0xDA
}

/// Only a trade: a message changes the rest of its row, and keeps the levels.
fn trade_alone(_: &mut Random) -> u8 {
    kinds::TRADE_ALONE
}

/// A full board on both sides.
struct Full {
    proved: Board,
    second: Box<[board::Row; ROWS]>,
}

pub fn board(effort: Effort) -> Result<Vec<Row>, String> {
    let mut random = Random::new(11);
    let codes = codes(ROWS + ONE, &mut random);
    let (stocks, others) = codes.split_at(ROWS);
    let mut any = |from: &[Code], many: usize| -> Vec<Code> { (0..many).map(|_| random.pick(from)).collect() };
    let (in_turn, questions) = (any(stocks, ANY), any(stocks, ANY));
    let (first, last) = (any(&stocks[..1], ONE), any(&stocks[ROWS - 1..], ONE));
    let alike: Vec<Code> =
        (0..ROWS).map(|i| [b'0', b'3', b'0', b'0', b'0' + (i / 16) as u8, b'0' + (i % 16) as u8]).collect();
    let alike_in_turn = any(&alike, ANY);
    let mut rows = Vec::new();
    for (name, on, codes, reveal) in [
        ("taken, any of 256 stocks", stocks, &in_turn[..], all_pairs as fn(&mut Random) -> u8),
        ("the same, any pairs", stocks, &in_turn, kinds::any_pairs),
        ("the same, the trade alone", stocks, &in_turn, trade_alone),
        ("the same, codes that begin alike", &alike, &alike_in_turn, all_pairs),
        ("taken, the first row's stock", stocks, &first, all_pairs),
        ("taken, the last row's stock", stocks, &last, all_pairs),
        ("refused with 52", stocks, others, all_pairs),
    ] {
        let within = |what: String| format!("board {name}: {what}");
        let (proved, second) = taking(effort, full(on)?, &quotes(codes, reveal)).map_err(within)?;
        rows.push(Row { part: PART, name: name.into(), bytes: 0.0, proved, second });
    }
    let (proved, second) = asking(effort, &full(stocks)?, &questions)?;
    rows.push(Row { part: PART, name: "asked for, any of 256 codes".into(), bytes: 0.0, proved, second });
    Ok(rows)
}

/// Different codes, of four digits.
fn codes(many: usize, random: &mut Random) -> Vec<Code> {
    let mut codes = Vec::new();
    while codes.len() < many {
        let code = kinds::code(random);
        if !codes.contains(&code) {
            codes.push(code);
        }
    }
    codes
}

/// A message for each of the codes.
fn quotes(codes: &[Code], reveal: fn(&mut Random) -> u8) -> Vec<Quote> {
    let mut random = Random::new(12);
    codes
        .iter()
        .zip(1..)
        .map(|(&code, number)| {
            let shown = reveal(&mut random);
            Quote { code, ..kinds::any_quote(&mut random, number, shown) }
        })
        .collect()
}

/// A board on which the stocks have come in their order.
fn full(stocks: &[Code]) -> Result<Full, String> {
    let mut full = Full { proved: Board::new(), second: Box::new(CLEAR) };
    agree(&mut full, &quotes(stocks, all_pairs))?;
    if full.proved.rows() == ROWS {
        Ok(full)
    } else {
        Err(format!("the board is not full but has {} rows", full.proved.rows()))
    }
}

fn taking(effort: Effort, mut full: Full, quotes: &[Quote]) -> Result<(f64, f64), String> {
    agree(&mut full, quotes)?;
    let ours: Vec<trivsome::Quote> = quotes.iter().map(same::quote).collect();
    let Full { proved: mut own, second: mut other } = full;
    let proved = || {
        let mut sum = 0;
        for quote in black_box(&ours) {
            sum += own.take(quote).map_or_else(|why| u64::from(why.number()), |()| 1);
        }
        black_box(&mut own);
        sum
    };
    let second = || {
        let mut sum = 0;
        for quote in black_box(quotes) {
            sum += board::take(&mut other[..], quote).map_or_else(|why| u64::from(why.number()), |()| 1);
        }
        black_box(&mut other);
        sum
    };
    both(effort, quotes.len(), proved, second)
}

/// The library hands out a row whole; the second program lends its own.
fn asking(effort: Effort, full: &Full, codes: &[Code]) -> Result<(f64, f64), String> {
    let proved = || {
        let board = black_box(&full.proved);
        let mut sum = 0;
        for &code in black_box(codes) {
            let row = black_box(board.ask(trivsome::Code(code)));
            sum += row.map_or(0, |row| u64::from(row.total.0) + u64::from(row.asks[4].price.0));
        }
        sum
    };
    let second = || {
        let rows = black_box(&full.second);
        let mut sum = 0;
        for code in black_box(codes) {
            let row = black_box(board::ask(&rows[..], code));
            sum += row.map_or(0, |row| u64::from(row.total.0) + u64::from(row.asks.levels[4].price.0));
        }
        sum
    };
    for code in codes {
        let (own, other) =
            (full.proved.ask(trivsome::Code(*code)), board::ask(&full.second[..], code).ok().map(same::row));
        if own != other {
            return Err(format!("board, the row of {code:?}: {own:?} against {other:?}"));
        }
    }
    both(effort, codes.len(), proved, second)
}

/// Both give the same answers to the messages, and the same rows at the end.
fn agree(full: &mut Full, quotes: &[Quote]) -> Result<(), String> {
    for quote in quotes {
        let own = full.proved.take(&same::quote(quote)).map_err(NotTaken::number);
        let other = board::take(&mut full.second[..], quote).map_err(Refusal::number);
        if own != other {
            return Err(format!("{quote:?} is answered {own:?} against {other:?}"));
        }
    }
    for place in 0..ROWS {
        let own = full.proved.row(place);
        let other = board::row_at(&full.second[..], place).ok().map(same::row);
        if own != other {
            return Err(format!("the row at {place} is {own:?} against {other:?}"));
        }
    }
    Ok(())
}
