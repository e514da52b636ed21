//! The board: every answer and their order, the edges of docs/RULES.md, long lines beside a plain list of each stock's
//! quotes, and what the program prints of small lines, with the rows written by hand.

use crate::build::*;
use second::board::{ask, clear, in_use, row_at, take, tell, Row, Side, CLEAR, NO_CODE, ROWS};
use second::faults::spoil;
use second::generate::Generator;
use second::random::Random;
use second::six::{Pair, Quote};
use second::times::LONG_NINES;
use second::units::{Code, Price, Quantity};
use second::walk::{walk, Line};
use second::{read, write, Message};

fn pair(price: u32, quantity: u32) -> Pair {
    Pair { price: Price(price), quantity: Quantity(quantity) }
}

fn side(levels: &[Pair]) -> Side {
    let mut side = Side { count: levels.len(), levels: [Pair::default(); 5] };
    side.levels[..levels.len()].copy_from_slice(levels);
    side
}

/// A quote of a stock with these pairs; number, time, limit, status and total are always the same.
fn quote_of(code: &Code, reveal: u8, sent: &[Pair]) -> Quote {
    let mut pairs = [Pair::default(); 11];
    pairs[..sent.len()].copy_from_slice(sent);
    let (time, total) = (90_415_061_278, Quantity(16_423));
    Quote { number: 8, code: *code, time, reveal, limit: 0x1B, status: 0xFF, total, pairs }
}

/// The row that such a quote leaves.
fn row_of(code: &Code, trade: Option<Pair>, bids: &[Pair], asks: &[Pair]) -> Row {
    let (time, total) = (90_415_061_278, Quantity(16_423));
    Row { code: *code, time, limit: 0x1B, status: 0xFF, total, trade, bids: side(bids), asks: side(asks) }
}

/// The day's last frame, with a trade and two levels that no row is to have.
fn last_of_day() -> Quote {
    Quote { time: LONG_NINES, ..quote_of(b"000000", 0x92, &[pair(5, 5), pair(4, 4), pair(6, 6)]) }
}

/// A code of its own for each number.
fn code_of(number: usize) -> Code {
    format!("{number:06}").into_bytes().try_into().unwrap()
}

/// A board with the stocks 1 to 256.
fn full() -> [Row; ROWS] {
    let mut rows = CLEAR;
    for stock in 1..=ROWS {
        assert_eq!(answer(&mut rows, &quote_of(&code_of(stock), 0x80, &[pair(stock as u32, 1)])), 0);
    }
    rows
}

/// What a message is answered.
fn answer(rows: &mut [Row], quote: &Quote) -> u8 {
    take(rows, quote).map_or_else(|why| why.number(), |()| 0)
}

/// What a message is answered that changes no row.
fn unchanged(rows: &[Row], quote: &Quote) -> u8 {
    let mut after = rows.to_vec();
    let answer = answer(&mut after, quote);
    assert!(after == rows, "a row changed");
    answer
}

fn asked(rows: &[Row], code: &Code) -> Result<Row, u8> {
    ask(rows, code).copied().map_err(|why| why.number())
}

fn at(rows: &[Row], place: usize) -> Result<Row, u8> {
    row_at(rows, place).copied().map_err(|why| why.number())
}

fn used(rows: &[Row]) -> Result<usize, u8> {
    in_use(rows).map_err(|why| why.number())
}

#[test]
fn a_clear_board() {
    let mut rows = [row_of(b"2330  ", Some(pair(1, 2)), &[pair(3, 4)], &[]); ROWS];
    assert_eq!(used(&rows), Ok(256));
    assert_eq!(clear(&mut rows), Ok(()));
    let zeros = Side { count: 0, levels: [pair(0, 0); 5] };
    let free =
        Row { code: [0; 6], time: 0, limit: 0, status: 0, total: Quantity(0), trade: None, bids: zeros, asks: zeros };
    assert!(rows.iter().all(|row| *row == free));
    assert_eq!(rows, CLEAR);
    assert_eq!(used(&rows), Ok(0));
    assert_eq!(asked(&rows, b"2330  "), Err(51));
    for place in [0, 1, 255, 256, usize::MAX] {
        assert_eq!(at(&rows, place), Err(51));
    }
}

#[test]
fn rows_in_the_order_of_their_codes() {
    let mut rows = CLEAR;
    let (trade, bids, asks) = (pair(995_000, 1), [pair(994_900, 2), pair(994_800, 3)], [pair(995_500, 4)]);
    let sent = [trade, bids[0], bids[1], asks[0]];
    assert_eq!(answer(&mut rows, &quote_of(b"2330  ", 0xA2, &sent)), 0);
    assert_eq!(answer(&mut rows, &quote_of(b"0050  ", 0x01, &[])), 0);
    assert_eq!(answer(&mut rows, &quote_of(b"1101  ", 0x02, &asks)), 0);
    let expected = [
        row_of(b"2330  ", Some(trade), &bids, &asks),
        row_of(b"0050  ", None, &[], &[]),
        row_of(b"1101  ", None, &[], &asks),
    ];
    assert_eq!(rows[..3], expected);
    assert_eq!(rows[3..], CLEAR[3..]);
    assert_eq!(used(&rows), Ok(3));
    for (place, row) in expected.iter().enumerate() {
        assert_eq!((asked(&rows, &row.code), at(&rows, place)), (Ok(*row), Ok(*row)));
    }
    assert_eq!((at(&rows, 3), asked(&rows, b"2330 0")), (Err(51), Err(51)));
    assert_eq!(rows[0].bids.levels(), bids);
    assert_eq!(clear(&mut rows), Ok(()));
    assert_eq!(rows, CLEAR);
}

#[test]
fn not_256_rows() {
    let good = quote_of(b"2330  ", 0x00, &[]);
    let bad = Quote { number: 100_000_000, ..good };
    for count in [0, 1, 255, 257, 512] {
        // One with its code, one with the code of no stock, and the rest free, as far as there is room.
        let mut lent = vec![row_of(b"2330  ", Some(pair(7, 7)), &[], &[]), row_of(b"000000", None, &[], &[])];
        lent.resize(count, Row::FREE);
        for quote in [good, bad, last_of_day(), quote_of(b"1101  ", 0x00, &[])] {
            assert_eq!(unchanged(&lent, &quote), 50);
        }
        for code in [b"2330  ", b"1101  ", b"000000", &NO_CODE, &[31; 6]] {
            assert_eq!(asked(&lent, code), Err(50));
        }
        for place in [0, 2, 254, 255, 256, usize::MAX] {
            assert_eq!(at(&lent, place), Err(50));
        }
        assert_eq!(used(&lent), Err(50));
        let before = lent.clone();
        assert_eq!(clear(&mut lent).map_err(|why| why.number()), Err(50));
        assert_eq!(lent, before);
        let full = vec![row_of(b"1101  ", None, &[], &[]); count];
        assert_eq!(unchanged(&full, &good), 50);
    }
}

#[test]
fn a_full_board() {
    let mut rows = full();
    assert_eq!(used(&rows), Ok(256));
    assert_eq!(at(&rows, 255), Ok(row_of(b"000256", Some(pair(256, 1)), &[], &[])));
    assert_eq!((at(&rows, 256), asked(&rows, b"000257")), (Err(51), Err(51)));
    let new = quote_of(b"000257", 0x80, &[pair(1, 1)]);
    assert_eq!(unchanged(&rows, &new), 52);
    assert_eq!(unchanged(&rows, &quote_of(b"      ", 0x00, &[])), 52);
    // 14 comes before 52, and before the day's last frame; that one is answered 0 on any board.
    assert_eq!(unchanged(&rows, &Quote { number: 100_000_000, ..new }), 14);
    assert_eq!(unchanged(&rows, &Quote { number: 100_000_000, ..last_of_day() }), 14);
    assert_eq!(unchanged(&rows, &last_of_day()), 0);
    assert_eq!(unchanged(&CLEAR, &last_of_day()), 0);
    // Stocks that have a row are changed as before, the first and the last too.
    let mut expected = rows;
    for place in [0, 100, 255] {
        let code = code_of(place + 1);
        assert_eq!(answer(&mut rows, &quote_of(&code, 0x10, &[pair(9, 9)])), 0);
        expected[place] = row_of(&code, Some(pair(place as u32 + 1, 1)), &[pair(9, 9)], &[]);
    }
    assert_eq!(rows, expected);
    // A row that is freed is there for a new code, and for one alone.
    rows[77].code = NO_CODE;
    assert_eq!((used(&rows), at(&rows, 77), asked(&rows, b"000078")), (Ok(255), Err(51), Err(51)));
    assert_eq!(answer(&mut rows, &new), 0);
    assert_eq!(asked(&rows, b"000257"), Ok(rows[77]));
    assert_eq!(unchanged(&rows, &quote_of(b"000078", 0x80, &[pair(1, 1)])), 52);
}

#[test]
fn the_last_trade_stays() {
    let mut rows = CLEAR;
    let mut trade = |reveal: u8, sent: &[Pair]| {
        assert_eq!(answer(&mut rows, &quote_of(b"2330  ", reveal, sent)), 0);
        asked(&rows, b"2330  ").unwrap().trade
    };
    assert_eq!(trade(0x10, &[pair(3, 3)]), None);
    assert_eq!(trade(0x80, &[pair(0, 0)]), Some(pair(0, 0))); // a trade of nothing is not none
    assert_eq!(trade(0x00, &[]), Some(pair(0, 0)));
    assert_eq!(trade(0xA2, &[pair(1, 2), pair(3, 3), pair(4, 4), pair(5, 5)]), Some(pair(1, 2)));
    assert_eq!(trade(0x12, &[pair(6, 6), pair(7, 7)]), Some(pair(1, 2)));
    assert_eq!(trade(0x01, &[]), Some(pair(1, 2)));
    assert_eq!(trade(0x81, &[pair(999_999_999, 99_999_999)]), Some(pair(999_999_999, 99_999_999)));
    assert_eq!(trade(0x80, &[pair(0, 0)]), Some(pair(0, 0)));
    // Another stock has none of it.
    assert_eq!(answer(&mut rows, &quote_of(b"2331  ", 0x00, &[])), 0);
    assert_eq!(asked(&rows, b"2331  ").unwrap().trade, None);
}

#[test]
fn sides_are_the_last_ones() {
    let mut rows = CLEAR;
    let all: Vec<Pair> = (1..=10).map(|n| pair(n, 10 * n)).collect();
    let mut sides = |reveal: u8, sent: &[Pair]| {
        assert_eq!(answer(&mut rows, &quote_of(b"2330  ", reveal, sent)), 0);
        let row = asked(&rows, b"2330  ").unwrap();
        (row.bids, row.asks)
    };
    assert_eq!(sides(0x5A, &all), (side(&all[..5]), side(&all[5..])));
    assert_eq!(sides(0x22, &all[..3]), (side(&all[..2]), side(&all[2..3])));
    assert_eq!(sides(0x0A, &all[..5]), (side(&[]), side(&all[..5])));
    assert_eq!(sides(0x50, &all[..5]), (side(&all[..5]), side(&[])));
    // A level of price 0 and quantity 0 is one, and two of them are not one.
    assert_eq!(sides(0x12, &[pair(0, 0); 2]), (side(&[pair(0, 0)]), side(&[pair(0, 0)])));
    assert_eq!(sides(0x20, &[pair(0, 0); 2]), (side(&[pair(0, 0); 2]), side(&[])));
    assert_eq!(sides(0x00, &[]), (Side::EMPTY, Side::EMPTY));
}

#[test]
fn sides_that_are_not_shown_stay() {
    let mut rows = CLEAR;
    let (bids, asks) = ([pair(11, 1), pair(10, 2), pair(0, 0)], [pair(12, 3), pair(13, 4)]);
    let shown = [&[pair(1, 1)], &bids[..], &asks[..]].concat();
    assert_eq!(answer(&mut rows, &quote_of(b"2330  ", 0xB4, &shown)), 0);
    assert_eq!(answer(&mut rows, &quote_of(b"2331  ", 0x02, &[pair(7, 7)])), 0);
    // The trade alone: it is the row's, and so are time, limit, status and total; the sides are as they were.
    let trade = Quote {
        number: 5,
        time: 90_415_061_279,
        limit: 0x81,
        status: 0x10,
        total: Quantity(16_424),
        ..quote_of(b"2330  ", 0x81, &[pair(2, 2)])
    };
    assert_eq!(answer(&mut rows, &trade), 0);
    let mut row = Row {
        code: *b"2330  ",
        time: 90_415_061_279,
        limit: 0x81,
        status: 0x10,
        total: Quantity(16_424),
        trade: Some(pair(2, 2)),
        bids: side(&bids),
        asks: side(&asks),
    };
    assert_eq!(asked(&rows, b"2330  "), Ok(row));
    assert_eq!(asked(&rows, b"2331  "), Ok(row_of(b"2331  ", None, &[], &[pair(7, 7)])));
    assert_eq!(used(&rows), Ok(2));
    // A second one, then one without a trade: that stays too.
    assert_eq!(answer(&mut rows, &quote_of(b"2330  ", 0x81, &[pair(0, 0)])), 0);
    assert_eq!(asked(&rows, b"2330  "), Ok(row_of(b"2330  ", Some(pair(0, 0)), &bids, &asks)));
    let nothing = Quote { time: 100_000_000_000, ..quote_of(b"2330  ", 0x01, &[]) };
    assert_eq!(answer(&mut rows, &nothing), 0);
    row = Row { time: 100_000_000_000, ..row_of(b"2330  ", Some(pair(0, 0)), &bids, &asks) };
    assert_eq!(asked(&rows, b"2330  "), Ok(row));
    // Levels that are shown again replace them, and none at all are shown by 80 and by 00.
    assert_eq!(answer(&mut rows, &quote_of(b"2330  ", 0x10, &[pair(9, 9)])), 0);
    assert_eq!(asked(&rows, b"2330  "), Ok(row_of(b"2330  ", Some(pair(0, 0)), &[pair(9, 9)], &[])));
    assert_eq!(answer(&mut rows, &quote_of(b"2330  ", 0x81, &[pair(3, 3)])), 0);
    assert_eq!(asked(&rows, b"2330  "), Ok(row_of(b"2330  ", Some(pair(3, 3)), &[pair(9, 9)], &[])));
    assert_eq!(answer(&mut rows, &quote_of(b"2330  ", 0x80, &[pair(4, 4)])), 0);
    assert_eq!(asked(&rows, b"2330  "), Ok(row_of(b"2330  ", Some(pair(4, 4)), &[], &[])));
    // Empty sides stay empty.
    assert_eq!(answer(&mut rows, &quote_of(b"2330  ", 0x81, &[pair(5, 5)])), 0);
    assert_eq!(asked(&rows, b"2330  "), Ok(row_of(b"2330  ", Some(pair(5, 5)), &[], &[])));
    // The day's last frame shows nothing and changes nothing.
    for last in [quote_of(b"000000", 0x01, &[]), quote_of(b"000000", 0x81, &[pair(6, 6)])] {
        assert_eq!(unchanged(&rows, &Quote { time: LONG_NINES, ..last }), 0);
    }
}

#[test]
fn a_row_taken_by_the_trade_alone() {
    // A row that was never shown levels has empty sides.
    let mut rows = CLEAR;
    assert_eq!(answer(&mut rows, &quote_of(b"2330  ", 0x81, &[pair(2, 2)])), 0);
    assert_eq!(answer(&mut rows, &quote_of(b"0050  ", 0x01, &[])), 0);
    let expected = [row_of(b"2330  ", Some(pair(2, 2)), &[], &[]), row_of(b"0050  ", None, &[], &[])];
    assert_eq!(rows[..2], expected);
    assert_eq!(rows[2..], CLEAR[2..]);
    // Behind it come the levels, and they stay.
    assert_eq!(answer(&mut rows, &quote_of(b"0050  ", 0x12, &[pair(3, 3), pair(4, 4)])), 0);
    assert_eq!(answer(&mut rows, &quote_of(b"0050  ", 0x01, &[])), 0);
    assert_eq!(rows[1], row_of(b"0050  ", None, &[pair(3, 3)], &[pair(4, 4)]));
    // A free row is emptied first, whatever it holds.
    let mut rows = full();
    for place in [20, 30] {
        assert_eq!(answer(&mut rows, &quote_of(&code_of(place + 1), 0x5A, &[pair(8, 8); 10])), 0);
        rows[place].code = NO_CODE;
    }
    let mut expected = rows;
    expected[20] = row_of(b"2330  ", Some(pair(2, 2)), &[], &[]);
    expected[30] = row_of(b"0050  ", None, &[], &[]);
    assert_eq!(answer(&mut rows, &quote_of(b"2330  ", 0x81, &[pair(2, 2)])), 0);
    assert_eq!(answer(&mut rows, &quote_of(b"0050  ", 0x01, &[])), 0);
    assert_eq!(rows, expected);
    // No row is left for another; the stocks that have one are changed as ever, the last of them too.
    assert_eq!(unchanged(&rows, &quote_of(b"000021", 0x81, &[pair(1, 1)])), 52);
    assert_eq!(unchanged(&rows, &quote_of(b"000021", 0x01, &[])), 52);
    assert_eq!(answer(&mut rows, &quote_of(b"000256", 0x10, &[pair(5, 5)])), 0);
    assert_eq!(answer(&mut rows, &quote_of(b"000256", 0x81, &[pair(6, 6)])), 0);
    expected[255] = row_of(b"000256", Some(pair(6, 6)), &[pair(5, 5)], &[]);
    assert_eq!(rows, expected);
}

#[test]
fn sides_stay_on_any_board() {
    // The first of two rows keeps its own sides, also behind a free row that holds others.
    let mut rows = CLEAR;
    rows[1] = Row { code: NO_CODE, ..row_of(b"2330  ", Some(pair(1, 1)), &[pair(1, 2)], &[pair(1, 3)]) };
    rows[3] = row_of(b"2330  ", Some(pair(3, 3)), &[], &[pair(3, 4)]);
    rows[9] = row_of(b"2330  ", Some(pair(9, 9)), &[pair(9, 8)], &[]);
    let mut expected = rows;
    expected[3] = row_of(b"2330  ", Some(pair(2, 2)), &[], &[pair(3, 4)]);
    assert_eq!(answer(&mut rows, &quote_of(b"2330  ", 0x81, &[pair(2, 2)])), 0);
    assert_eq!(rows, expected);
    // Sides that no call leaves are kept as they stand.
    let odd = [
        Side { count: usize::MAX, levels: [pair(u32::MAX, u32::MAX); 5] },
        Side { count: 6, levels: [pair(7, 7); 5] },
        Side { count: 1, levels: [pair(1, 1), pair(2, 2), pair(0, 0), pair(4, 4), pair(5, 5)] },
    ];
    for bids in odd {
        for asks in odd {
            rows[3] = Row { bids, asks, ..expected[3] };
            let before = rows[3];
            assert_eq!(answer(&mut rows, &quote_of(b"2330  ", 0x01, &[])), 0);
            assert_eq!(rows[3], before);
        }
    }
}

#[test]
fn levels_beside_the_trade_alone() {
    // No such message can be written, so none is taken: on its own row, on a free one, and on a full board.
    let mut rows = CLEAR;
    assert_eq!(answer(&mut rows, &quote_of(b"2330  ", 0x12, &[pair(1, 1), pair(2, 2)])), 0);
    for (reveal, many) in [(0xA3, 4), (0x11, 1), (0x03, 1), (0x83, 2), (0x91, 2), (0xDB, 11)] {
        for code in [b"2330  ", b"0050  ", b"000001"] {
            for rows in [&rows, &full()] {
                assert_eq!(unchanged(rows, &quote_of(code, reveal, &[pair(3, 3); 11][..many])), 14, "{reveal:02X}");
                assert_eq!(unchanged(rows, &quote_of(code, reveal, &[])), 14, "{reveal:02X}");
            }
        }
        let last = Quote { time: LONG_NINES, ..quote_of(b"000000", reveal, &[pair(3, 3); 11][..many]) };
        assert_eq!(unchanged(&rows, &last), 14, "{reveal:02X}");
        assert_eq!(unchanged(&rows[..255], &last), 50, "{reveal:02X}");
    }
}

#[test]
fn codes_at_the_edge() {
    // Six spaces are a stock like any other, and every byte of a code counts.
    let mut rows = CLEAR;
    let codes: [&Code; 8] =
        [b"      ", b"     !", b"!     ", b"~~~~~~", b"\"\\\"\\\"\\", b"000001", b"100000", b"00000 "];
    for code in codes {
        assert_eq!(asked(&rows, code), Err(51));
        assert_eq!(answer(&mut rows, &quote_of(code, 0x00, &[])), 0);
        assert_eq!(asked(&rows, code), Ok(row_of(code, None, &[], &[])));
    }
    assert_eq!(used(&rows), Ok(8));
    assert!(rows.iter().map(|row| &row.code).take(8).eq(codes));
}

#[test]
fn codes_that_no_stock_has() {
    let mut rows = full();
    let codes: [Code; 7] = [NO_CODE, *b"000000", [31; 6], *b"2330 \x7f", *b"\x00330  ", *b"2330\x1b ", [255; 6]];
    for (place, code) in codes.iter().enumerate() {
        rows[place].code = *code;
    }
    for code in codes {
        assert_eq!(asked(&rows, &code), Err(51), "{code:?}");
        assert_eq!(asked(&CLEAR, &code), Err(51), "{code:?}");
        assert_eq!(unchanged(&rows, &quote_of(&code, 0x00, &[])), 14, "{code:?}");
    }
    // All but the free one are in use, and are handed back as they stand.
    assert_eq!((used(&rows), at(&rows, 0)), (Ok(255), Err(51)));
    for place in 1..codes.len() {
        assert_eq!(at(&rows, place), Ok(rows[place]));
    }
    // The day's last frame leaves a row with its code as it is.
    assert_eq!(unchanged(&rows, &last_of_day()), 0);
}

#[test]
fn the_first_of_two_rows() {
    // Free rows before, between and behind two rows with the code.
    let mut rows = CLEAR;
    rows[3] = row_of(b"2330  ", Some(pair(3, 3)), &[], &[pair(3, 4)]);
    rows[9] = row_of(b"2330  ", Some(pair(9, 9)), &[pair(9, 8)], &[]);
    assert_eq!((asked(&rows, b"2330  "), used(&rows)), (Ok(rows[3]), Ok(2)));
    let mut expected = rows;
    expected[3] = row_of(b"2330  ", Some(pair(3, 3)), &[pair(1, 1)], &[]);
    assert_eq!(answer(&mut rows, &quote_of(b"2330  ", 0x10, &[pair(1, 1)])), 0);
    assert_eq!(rows, expected);
    // With the first one gone the other is taken, and the rows before it stay free.
    rows[3] = Row::FREE;
    expected[3] = Row::FREE;
    expected[9] = row_of(b"2330  ", Some(pair(9, 9)), &[], &[]);
    assert_eq!(answer(&mut rows, &quote_of(b"2330  ", 0x00, &[])), 0);
    assert_eq!(rows, expected);
    // A code on the last row alone, all others free.
    let mut rows = CLEAR;
    rows[255] = row_of(b"1101  ", Some(pair(1, 1)), &[], &[]);
    assert_eq!(answer(&mut rows, &quote_of(b"1101  ", 0x10, &[pair(2, 2)])), 0);
    assert_eq!((at(&rows, 0), used(&rows)), (Err(51), Ok(1)));
    assert_eq!(rows[255], row_of(b"1101  ", Some(pair(1, 1)), &[pair(2, 2)], &[]));
}

#[test]
fn a_free_row_is_emptied() {
    // Free by their codes, and yet with a trade, levels and counts that no call leaves.
    let mut rows = full();
    let rubbish = Side { count: usize::MAX, levels: [pair(u32::MAX, u32::MAX); 5] };
    for place in [20, 30] {
        rows[place] = Row { code: NO_CODE, bids: rubbish, asks: rubbish, ..rows[place] };
        assert!(rows[place].trade.is_some());
    }
    assert_eq!((at(&rows, 20), used(&rows)), (Err(51), Ok(254)));
    let mut expected = rows;
    expected[20] = row_of(b"2330  ", None, &[pair(1, 1)], &[]);
    assert_eq!(answer(&mut rows, &quote_of(b"2330  ", 0x10, &[pair(1, 1)])), 0);
    assert_eq!(rows, expected);
    assert_eq!(answer(&mut rows, &quote_of(b"2331  ", 0x80, &[pair(0, 0)])), 0);
    assert_eq!(rows[30], row_of(b"2331  ", Some(pair(0, 0)), &[], &[]));
    // A side of a row in use with such a count is replaced as well.
    rows[20].asks = rubbish;
    assert_eq!(rows[20].asks.levels().len(), 5);
    assert_eq!(answer(&mut rows, &quote_of(b"2330  ", 0x02, &[pair(2, 2)])), 0);
    assert_eq!(rows[20], row_of(b"2330  ", None, &[], &[pair(2, 2)]));
}

#[test]
fn a_late_frame_overwrites() {
    let mut rows = CLEAR;
    let late = quote_of(b"2330  ", 0x80, &[pair(1, 1)]);
    let early = Quote { number: 9, time: 235_959_999_999, total: Quantity(99_999_999), limit: 0, status: 1, ..late };
    assert_eq!(answer(&mut rows, &early), 0);
    let row = asked(&rows, b"2330  ").unwrap();
    assert_eq!((row.time, row.limit, row.status, row.total), (235_959_999_999, 0, 1, Quantity(99_999_999)));
    let zero = Quote { number: 0, time: 0, total: Quantity(0), ..late };
    assert_eq!(answer(&mut rows, &zero), 0);
    let row = asked(&rows, b"2330  ").unwrap();
    assert_eq!((row.time, row.limit, row.status, row.total), (0, 0x1B, 0xFF, Quantity(0)));
    assert_eq!((answer(&mut rows, &late), used(&rows)), (0, Ok(1)));
    assert_eq!(rows[0], row_of(b"2330  ", Some(pair(1, 1)), &[], &[]));
    // The trade alone, late: its fields overwrite, and the sides of the frame before it stay.
    let shown = Quote { time: 235_959_999_999, ..quote_of(b"2330  ", 0x92, &[pair(5, 5), pair(6, 6), pair(7, 7)]) };
    assert_eq!(answer(&mut rows, &shown), 0);
    assert_eq!(answer(&mut rows, &Quote { reveal: 0x81, ..late }), 0);
    assert_eq!(rows[0], row_of(b"2330  ", Some(pair(1, 1)), &[pair(6, 6)], &[pair(7, 7)]));
    assert_eq!(answer(&mut rows, &Quote { number: 0, time: 0, ..quote_of(b"2330  ", 0x01, &[]) }), 0);
    let row = Row { time: 0, ..row_of(b"2330  ", Some(pair(1, 1)), &[pair(6, 6)], &[pair(7, 7)]) };
    assert_eq!((asked(&rows, b"2330  "), used(&rows)), (Ok(row), Ok(1)));
}

#[test]
fn messages_that_could_not_be_written() {
    let sent = [pair(1, 1), pair(2, 2), pair(3, 3), pair(4, 4)];
    let good = quote_of(b"2330  ", 0xA2, &sent);
    let mut rows = CLEAR;
    assert_eq!(answer(&mut rows, &good), 0);
    let breaks = |change: &dyn Fn(&mut Quote)| {
        let mut quote = good;
        change(&mut quote);
        // On a clear board, on one with the stock's row, and on a full one.
        for rows in [&CLEAR, &rows, &full()] {
            assert_eq!(unchanged(rows, &quote), 14, "{quote:?}");
        }
    };
    breaks(&|quote| quote.number = 100_000_000);
    breaks(&|quote| quote.number = u32::MAX);
    breaks(&|quote| quote.code[5] = 31);
    breaks(&|quote| quote.code[0] = 127);
    breaks(&|quote| quote.code = NO_CODE);
    breaks(&|quote| quote.code = *b"000000");
    for time in [240_000_000_000, 6_000_000_000, 60_000_000, LONG_NINES, 1_000_000_000_000, u64::MAX] {
        breaks(&|quote| quote.time = time);
    }
    for reveal in [0x60, 0x70, 0x0C, 0x0E, 0xFF, 0xA0, 0x22, 0x92, 0x00, 0x81, 0x01, 0xA3] {
        // too many levels, pairs left over, or levels beside the trade alone
        breaks(&|quote| quote.reveal = reveal);
    }
    breaks(&|quote| quote.total = Quantity(100_000_000));
    breaks(&|quote| quote.pairs[0].price = Price(1_000_000_000));
    breaks(&|quote| quote.pairs[3].quantity = Quantity(100_000_000));
    breaks(&|quote| quote.pairs[4].price = Price(1));
    breaks(&|quote| quote.pairs[10].quantity = Quantity(1));
    breaks(&|quote| *quote = Quote { total: Quantity(100_000_000), ..last_of_day() });
    breaks(&|quote| *quote = Quote { time: 0, ..last_of_day() });
    // Any fault of any kind, and 14 exactly where the writing answers it.
    let (mut generator, mut random) = (Generator::new(6), Random::new(6));
    let mut after = CLEAR;
    for _ in 0..500 {
        let mut message = *read(&generator.whole()).message().expect("a whole frame has a message");
        let Message::Six(quote) = message else { continue };
        assert_ne!(answer(&mut after, &quote), 14, "{quote:?}");
        spoil(&mut message, &mut random);
        assert_eq!(write(&message, &mut [0; 200]).map_err(|why| why.number()), Err(14));
        let Message::Six(quote) = message else { continue };
        assert_eq!(unchanged(&after, &quote), 14, "{quote:?}");
    }
}

/// A stock's row from all its quotes, at once.
fn row_from(quotes: &[Quote]) -> Row {
    let last = quotes.last().unwrap();
    Row {
        code: last.code,
        time: last.time,
        limit: last.limit,
        status: last.status,
        total: last.total,
        trade: quotes.iter().rev().find_map(Quote::trade),
        bids: quotes.iter().rev().find_map(Quote::bids).map_or(Side::EMPTY, side),
        asks: quotes.iter().rev().find_map(Quote::asks).map_or(Side::EMPTY, side),
    }
}

#[test]
fn long_lines() {
    let mut generator = Generator::new(11);
    for frames in [4000, 1000, 700, 300, 60, 20] {
        let mut rows = CLEAR;
        // The quotes of each stock that has come, in the order of their first ones.
        let mut stocks: Vec<(Code, Vec<Quote>)> = Vec::new();
        let line = generator.line(frames);
        for step in walk(&line, Line::Closed) {
            let Some(Message::Six(quote)) = step.answer.message() else { continue };
            let place = stocks.iter().position(|(code, _)| *code == quote.code);
            let expected = match place {
                _ if quote.code == *b"000000" => 0,
                Some(place) => {
                    stocks[place].1.push(*quote);
                    0
                }
                None if stocks.len() == ROWS => 52,
                None => {
                    stocks.push((quote.code, vec![*quote]));
                    0
                }
            };
            assert_eq!(answer(&mut rows, quote), expected);
        }
        assert_eq!(used(&rows), Ok(stocks.len()));
        for (place, (code, quotes)) in stocks.iter().enumerate() {
            let row = row_from(quotes);
            assert_eq!((at(&rows, place), asked(&rows, code)), (Ok(row), Ok(row)));
        }
        assert_eq!(rows[stocks.len()..], CLEAR[stocks.len()..]);
    }
}

fn told(bytes: &[u8]) -> String {
    let mut output = Vec::new();
    tell(bytes, &mut output).unwrap();
    String::from_utf8(output).unwrap()
}

/// A frame of format six: limit 0, status 16, and the rest as given.
fn six(code: &str, time: &str, reveal: &str, rest: &str) -> Vec<u8> {
    frame(SIX, &body(code, &format!("{time} {reveal} 00 10 {rest}")))
}

#[test]
fn nothing_to_tell() {
    assert_eq!(told(&[]), "");
    let last = six("000000", NINES, "80", "00000001 0000995000 00000250");
    let mut refused = quote(0x00, 0);
    refused[15] = 0x0A;
    let others = [hex("41"), hex(NOTICE), hex(HALT), last, frame(SIX, &refused), hex("1B 00 32")].concat();
    assert_eq!(told(&others), "");
}

#[test]
fn what_a_line_leaves() {
    let line = [
        six(
            "2330  ",
            "090000000001",
            "A2",
            "00000001 0000995000 00001234 0000994900 00000001 0000000001 00000000 0999999999 99999999",
        ),
        hex("41 1B"),
        six("0050  ", "090000000002", "80", "00000002 0000000000 00000000"),
        hex(NOTICE),
        six("\"\\~/a ", "235959999999", "12", "99999999 0000000000 00000000 0012345678 00000005"),
        six("      ", "000000000000", "01", "00000000"),
        six("2330  ", "090415061278", "10", "00016423 0000990000 00000001"),
        six("000000", NINES, "DA", &format!("00000000 {}", "0000995000 00000250".repeat(11))),
        six("2330  ", "250000000000", "00", "00000000"), // refused: no such time
        six("0050  ", "085959000000", "02", "00000001 0000500000 00000007"), // late
        frame(SIX, &quote(0x60, 6)),
    ];
    let text = concat!(
        r#"{"code":"2330  ","time":"09:04:15.061278","limit":0,"status":16,"total":16423,"#,
        r#""trade":{"price":"99.5000","quantity":1234},"bids":[{"price":"99.0000","quantity":1}],"asks":[]}"#,
        "\n",
        r#"{"code":"0050  ","time":"08:59:59.000000","limit":0,"status":16,"total":1,"#,
        r#""trade":{"price":"0.0000","quantity":0},"bids":[],"asks":[{"price":"50.0000","quantity":7}]}"#,
        "\n",
        r#"{"code":"\"\\~/a ","time":"23:59:59.999999","limit":0,"status":16,"total":99999999,"#,
        r#""trade":null,"bids":[{"price":"0.0000","quantity":0}],"asks":[{"price":"1234.5678","quantity":5}]}"#,
        "\n",
        r#"{"code":"      ","time":"00:00:00.000000","limit":0,"status":16,"total":0,"trade":null,"bids":[],"asks":[]}"#,
        "\n",
    );
    assert_eq!(told(&line.concat()), text);
}

#[test]
fn a_line_of_trades_alone() {
    let (one, other) = ("0000994900 00000001", "0000995500 00000002");
    let line = [
        // Levels, two trades alone behind them, and levels refused beside one.
        six("2330  ", "090000000001", "12", &format!("00000001 {one} {other}")),
        six("2330  ", "090000000002", "81", "00000011 0000995000 00000010"),
        six("0050  ", "090000000003", "81", "00000005 0000500000 00000005"),
        six("2330  ", "090000000004", "81", "00000012 0000995500 00000001"),
        six("2330  ", "090000000005", "A3", &format!("00000013 {one} {one} {one} {one}")),
        // A stock whose levels come behind its trade, and one that has nothing but its time.
        six("1101  ", "090000000006", "81", "00000007 0000420000 00000007"),
        six("1101  ", "090000000007", "10", &format!("00000007 {one}")),
        six("      ", "000000000000", "01", "00000000"),
        six("1101  ", "090000000008", "01", "00000008"),
        // Late, and with empty sides that are shown; then the trade alone once more.
        six("9958  ", "090000000009", "02", &format!("00000001 {other}")),
        six("9958  ", "080000000000", "00", "00000002"),
        six("9958  ", "070000000000", "81", "00000003 0000010000 00000001"),
    ];
    let rows = [
        r#"{"code":"2330  ","time":"09:00:00.000004","limit":0,"status":16,"total":12,"trade":{"price":"99.5500","quantity":1},"bids":[{"price":"99.4900","quantity":1}],"asks":[{"price":"99.5500","quantity":2}]}"#,
        r#"{"code":"0050  ","time":"09:00:00.000003","limit":0,"status":16,"total":5,"trade":{"price":"50.0000","quantity":5},"bids":[],"asks":[]}"#,
        r#"{"code":"1101  ","time":"09:00:00.000008","limit":0,"status":16,"total":8,"trade":{"price":"42.0000","quantity":7},"bids":[{"price":"99.4900","quantity":1}],"asks":[]}"#,
        r#"{"code":"      ","time":"00:00:00.000000","limit":0,"status":16,"total":0,"trade":null,"bids":[],"asks":[]}"#,
        r#"{"code":"9958  ","time":"07:00:00.000000","limit":0,"status":16,"total":3,"trade":{"price":"1.0000","quantity":1},"bids":[],"asks":[]}"#,
    ];
    assert_eq!(told(&line.concat()), rows.join("\n") + "\n");
}

#[test]
fn a_line_of_too_many_stocks() {
    let one = |number: usize| six(&format!("{number:06}"), DAY, "00", &format!("{number:08}"));
    let row = |code: usize, total: usize| {
        format!(
            "{{\"code\":\"{code:06}\",\"time\":\"09:10:03.554189\",\"limit\":0,\"status\":16,\"total\":{total},\
             \"trade\":null,\"bids\":[],\"asks\":[]}}\n"
        )
    };
    let line: Vec<u8> = (1..=256).flat_map(one).collect();
    let text: String = (1..=256).map(|number| row(number, number)).collect();
    assert_eq!(told(&line), text);
    let refused = |times: usize| format!("{{\"refused\":52,\"count\":{times}}}\n");
    assert_eq!(told(&[line.clone(), one(257)].concat()), text.clone() + &refused(1));
    // The day's last frame and a stock with a row are not refused; one without is refused each time.
    let more =
        [one(258), six("000000", NINES, "00", "00000000"), one(257), six("000256", DAY, "00", "00000009"), one(257)];
    let text = text.replace(&row(256, 256), &row(256, 9));
    assert_eq!(told(&[line, more.concat()].concat()), text + &refused(3));
}
