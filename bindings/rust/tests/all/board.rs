use trivsome::*;

use crate::frames;

fn pair(price: u32, quantity: u32) -> Pair {
    Pair { price: Price(price), quantity: Quantity(quantity) }
}

/// A quote of a stock that shows nothing.
fn quote_of(code: &[u8; 6], time: u64) -> Quote {
    Quote { seq: 1, code: Code(*code), time, ..Quote::default() }
}

/// The code of one of 256 stocks.
fn code(place: usize) -> [u8; 6] {
    let [high, low] = [place / 16, place % 16].map(|half| b'A' + half as u8);
    [high, low, b' ', b' ', b' ', b' ']
}

fn full() -> Board {
    let mut board = Board::new();
    for place in 0..Board::ROWS {
        assert_eq!(board.rows(), place);
        assert_eq!(board.take(&quote_of(&code(place), place as u64)), Ok(()));
    }
    board
}

#[test]
fn zeros_are_a_clear_board() {
    let board = Board::new();
    assert_eq!(board, Board::from_lists(&[0; 256], &[0; 6656]));
    assert_eq!((board.rows(), board.iter().count()), (0, 0));
    assert!([0, 255, 256, usize::MAX].iter().all(|&place| board.row(place).is_none()));
    for none in [*b"2330  ", *b"000000", [0; 6], [31; 6], [127; 6], *b"2330 \x80"] {
        assert_eq!(board.ask(Code(none)), None);
    }
}

#[test]
fn a_row_is_what_the_last_quote_said() {
    let mut board = Board::new();
    let (_, quote) = read_quote(&frames::quote(0xA2, 4), 0).expect("accepted");
    assert_eq!(board.take(&quote), Ok(()));
    let row = board.ask(Code(*b"2330  ")).expect("there");
    assert_eq!((row.code, row.time, row.total), (Code(*b"2330  "), 90_415_061_278, Quantity(12_345)));
    assert_eq!((row.reveal, row.limit, row.status), (0xA2, 1, 2));
    assert_eq!(row.trade(), Some(pair(1, 10)));
    assert_eq!((row.bids(), row.asks()), (&[pair(2, 20), pair(3, 30)][..], &[pair(4, 40)][..]));
    assert_eq!((row.trade, row.bids, row.asks), (quote.trade, quote.bids, quote.asks));
    assert_eq!((board.row(0), board.row(1), board.rows()), (Some(row), None, 1));
    assert!(board.iter().eq([row]));
}

#[test]
fn a_quote_without_a_trade_keeps_the_last_one() {
    let mut board = Board::new();
    let (_, first) = read_quote(&frames::quote(0xDA, 11), 0).expect("accepted");
    let bids = [Pair::default(); 5];
    let second = Quote { reveal: 0x10, trade: Pair::default(), bids, asks: bids, time: 0, ..first };
    assert_eq!([first, second].map(|quote| board.take(&quote)), [Ok(()); 2]);
    let row = board.row(0).expect("there");
    // a level of zeros is a level, and an earlier time counts for nothing
    assert_eq!((row.trade(), row.bids(), row.asks(), row.time), (Some(pair(1, 10)), &bids[..1], &[][..], 0));
    let third = Quote { reveal: 0x80, ..second };
    assert_eq!(board.take(&third), Ok(()));
    assert_eq!(board.row(0).and_then(|row| row.trade()), Some(Pair::default()));
    assert_eq!(board.take(&quote_of(b"1101  ", 1)), Ok(()));
    assert_eq!(board.row(1).map(|row| (row.code, row.trade(), row.reveal)), Some((Code(*b"1101  "), None, 0)));
}

/// A quote of stock 2330 that sends at most a trade, with other fields than the frames'.
fn only_trade(reveal: u8, trade: Pair) -> Quote {
    Quote { reveal, trade, limit: 5, status: 6, total: Quantity(7), ..quote_of(b"2330  ", 8) }
}

#[test]
fn a_quote_that_shows_no_levels_keeps_both_sides() {
    let mut board = Board::new();
    let (_, first) = read_quote(&frames::quote(0xA2, 4), 0).expect("accepted");
    let (bids, asks) = ([pair(2, 20), pair(3, 30)], [pair(4, 40)]);
    // the second sends a trade, the third not even that: the row has the second's trade, and still the first's sides
    for (quote, trade) in [
        (first, pair(1, 10)),
        (only_trade(0x81, pair(9, 90)), pair(9, 90)),
        (only_trade(0x01, pair(0, 0)), pair(9, 90)),
    ] {
        assert_eq!(board.take(&quote), Ok(()));
        let row = board.row(0).expect("there");
        assert_eq!((row.bids(), row.asks(), row.trade(), row.reveal), (&bids[..], &asks[..], Some(trade), 0xA2));
        assert_eq!((row.limit, row.status, row.total, row.time), (quote.limit, quote.status, quote.total, quote.time));
        assert_eq!((row.bids, row.asks), (first.bids, first.asks));
    }
    // sides that are shown and empty are the row's, and stay it
    for quote in [quote_of(b"2330  ", 9), only_trade(0x81, pair(1, 1))] {
        assert_eq!(board.take(&quote), Ok(()));
        let row = board.row(0).expect("there");
        assert_eq!((row.bids(), row.asks(), row.bids, row.asks), (&[][..], &[][..], [pair(0, 0); 5], [pair(0, 0); 5]));
    }
    assert_eq!(board.rows(), 1);
}

#[test]
fn a_stock_that_showed_no_levels_yet_has_empty_sides() {
    // a free row of numbers that no quotes leave, of which nothing stays
    let mut heads = [u64::MAX; 256];
    heads[9] = 0;
    for (mut board, place) in [(Board::new(), 0), (Board::from_lists(&heads, &[u32::MAX; 6656]), 9)] {
        assert_eq!(board.take(&only_trade(0x01, pair(0, 0))), Ok(()));
        let row = board.row(place).expect("there");
        assert_eq!((row.code, row.trade(), row.reveal), (Code(*b"2330  "), None, 0));
        assert_eq!((row.bids(), row.asks(), row.bids, row.asks), (&[][..], &[][..], [pair(0, 0); 5], [pair(0, 0); 5]));
        assert_eq!(board.take(&only_trade(0x81, pair(0, 0))), Ok(()));
        assert_eq!(board.row(place).map(|row| (row.trade(), row.reveal)), Some((Some(pair(0, 0)), 0x80)));
        // a level of zeros is a level, and is kept as one
        for quote in [Quote { reveal: 0x12, ..quote_of(b"2330  ", 1) }, only_trade(0x01, pair(0, 0))] {
            assert_eq!(board.take(&quote), Ok(()));
            let row = board.row(place).expect("there");
            assert_eq!((row.bids(), row.asks(), row.reveal), (&[pair(0, 0)][..], &[pair(0, 0)][..], 0x92));
        }
    }
}

#[test]
fn what_could_not_be_written_is_not_taken() {
    let mut board = full();
    let before = board.clone();
    let asks = [pair(0, 1); 5];
    let zeros = quote_of(b"000000", 0);
    let high = Quote { seq: 100_000_000, ..quote_of(&code(0), 1) };
    let six = Quote { reveal: 0x60, ..quote_of(b"NEW   ", 1) };
    let unused = Quote { asks, ..quote_of(&code(0), 1) };
    let levels = Quote { reveal: 0x11, ..quote_of(&code(0), 1) };
    for wrong in [Quote::default(), zeros, high, six, unused, levels] {
        assert_eq!(board.take(&wrong), Err(NotTaken::Message));
        assert_eq!(board, before);
    }
    assert_eq!(NotTaken::Message.number(), 14);
    assert_eq!(NotTaken::Message.to_string(), "14: the message breaks a rule");
}

#[test]
fn a_full_board_takes_no_other_stock() {
    let mut board = full();
    let before = board.clone();
    assert_eq!(board.rows(), 256);
    assert!(board.iter().map(|row| row.code.0).eq((0..256).map(code)));
    assert!((0..256).all(|place| board.ask(Code(code(place))) == board.row(place) && board.row(place).is_some()));
    assert_eq!(board.take(&quote_of(b"NEW   ", 1)), Err(NotTaken::Full));
    assert_eq!(NotTaken::Full.number(), 52);
    assert_eq!(NotTaken::Full.to_string(), "52: all rows are those of other stocks");
    // the day's last frame answers 0, and touches no row
    assert_eq!(board.take(&quote_of(b"000000", LONG_NINES)), Ok(()));
    assert_eq!(board.take(&Quote { reveal: 0x01, ..quote_of(b"000000", LONG_NINES) }), Ok(()));
    assert_eq!(board, before);
    assert_eq!(board.take(&quote_of(&code(255), 1)), Ok(()));
    assert_eq!(board.row(255).map(|row| row.time), Some(1));
    assert!((0..255).all(|place| board.row(place) == before.row(place)));
    board.clear();
    assert_eq!(board, Board::default());
}

#[test]
fn numbers_that_no_quotes_leave() {
    let (mut heads, cells) = ([u64::MAX; 256], [u32::MAX; 6656]);
    let mut board = Board::from_lists(&heads, &cells);
    let row = board.row(255).expect("in use");
    assert_eq!((row.code, row.time, row.reveal), (Code([255; 6]), u64::MAX, 0xFE));
    assert_eq!((row.bids().len(), row.asks().len(), board.ask(row.code)), (5, 5, None));
    assert_eq!(board.take(&quote_of(&code(0), 1)), Err(NotTaken::Full));
    assert_eq!((board.heads(), board.cells()), (&heads, &cells));
    // a free row between others is gone past, and is the next stock's, emptied; of two rows with a code the first counts
    heads[9] = 0;
    board = Board::from_lists(&heads, &cells);
    assert_eq!((board.row(9), board.rows(), board.iter().count()), (None, 255, 255));
    assert_eq!(board.take(&quote_of(&code(0), 1)), Ok(()));
    assert_eq!(board.row(9).map(|row| (row.time, row.reveal, row.trade)), Some((1, 0, Pair::default())));
    heads = *board.heads();
    heads[200] = heads[9];
    board = Board::from_lists(&heads, board.cells());
    assert_eq!(board.ask(Code(code(0))), board.row(9));
}

#[test]
fn lists_of_other_lengths_answer_50_first_and_stay() {
    let quote = quote_of(&code(0), 1);
    for (head_count, cell_count) in [(0, 0), (255, 6656), (257, 6656), (256, 6655), (256, 6657), (0, 6656), (256, 0)] {
        let (mut heads, mut cells) = (vec![5; head_count], vec![6; cell_count]);
        let lent = Row { time: 7, reveal: 8, ..Row::default() };
        let mut row = lent;
        assert_eq!(raw::board_clear(&mut heads, &mut cells), 50);
        assert_eq!(raw::board_take(&mut heads, &mut cells, &quote), 50);
        assert_eq!(raw::board_take(&mut heads, &mut cells, &Quote::default()), 50);
        assert_eq!(raw::board_ask(&heads, &cells, &code(0), &mut row), 50);
        assert_eq!(raw::board_ask(&heads, &cells, &[0; 6], &mut row), 50);
        assert_eq!(raw::board_row(&heads, &cells, 0, &mut row), 50);
        assert_eq!(raw::board_row(&heads, &cells, usize::MAX, &mut row), 50);
        assert_eq!(raw::board_rows(&heads, &cells), 50);
        assert_eq!((heads, cells, row), (vec![5; head_count], vec![6; cell_count], lent));
    }
}

#[test]
fn a_refusal_leaves_the_row_that_was_lent() {
    let board = full();
    let lent = Row { time: 7, reveal: 8, code: Code([9; 6]), total: Quantity(10), ..Row::default() };
    let mut row = lent;
    assert_eq!(raw::board_ask(board.heads(), board.cells(), b"NEW   ", &mut row), 51);
    assert_eq!(raw::board_ask(board.heads(), board.cells(), b"000000", &mut row), 51);
    assert_eq!(raw::board_row(board.heads(), board.cells(), 256, &mut row), 51);
    assert_eq!(row, lent);
    assert_eq!(raw::board_row(board.heads(), board.cells(), 255, &mut row), 0);
    assert_eq!(Some(row), board.row(255));
}
