//! The calls of the proved library as they are, lent Rust's own references. All unsafe code of the package is here.
//!
//! An outcome is one number: the answer in bits 0 to 7, and above it what the call tells beside it. Of a reading and a move
//! these are the format (8 to 15), the length or the bytes gone past (16 to 31), and in bits 32 to 63 an accepted frame's
//! sequence number, or beside 1 to 13 the place of the first bad half byte plus one, 0 where no place is told. Of a writing it
//! is the length; of a figure the figure, of a board how many rows are in use, and of a capture how many blocks are finished; of
//! a run, also of one that is given up, its first number (8 to 35) and its last (36 to 63); of an arrival how many numbers more
//! are heard. Of an append it is the place of the block (8 to 15), and so of a bad block beside 33; of a payload its length (16
//! to 31) and where in the capture it begins (32 to 63). A refused call leaves what it was lent as it came. Clearing a ledger and
//! the calls on packed digits refuse nothing, and have no outcome.
#![allow(unsafe_code)]

use std::mem::{offset_of, size_of};

use crate::board::Row;
use crate::index::Index;
use crate::prices::Prices;
use crate::quote::Quote;

/// A slice is a pointer and a length, anything else lent is a pointer.
mod calls {
    extern "C" {
        pub fn trivsome_read(line: *const u8, length: usize, at: usize) -> u64;
        pub fn trivsome_read_notice_numbers(
            line: *const u8,
            length: usize,
            at: usize,
            category: *mut u8,
            text: *mut [u8; 60],
        ) -> u64;
        pub fn trivsome_read_quote_numbers(
            line: *const u8,
            length: usize,
            at: usize,
            bytes: *mut [u8; 9],
            time: *mut u64,
            amounts: *mut [u32; 23],
        ) -> u64;
        pub fn trivsome_read_prices_numbers(
            line: *const u8,
            length: usize,
            at: usize,
            count: *mut u8,
            codes: *mut [u8; 60],
            amounts: *mut [u32; 50],
            times: *mut [u64; 10],
        ) -> u64;
        pub fn trivsome_read_halt_numbers(
            line: *const u8,
            length: usize,
            at: usize,
            code: *mut [u8; 6],
            event: *mut [u32; 4],
        ) -> u64;
        pub fn trivsome_write_notice_numbers(
            seq: u32,
            category: u8,
            text: *const u8,
            text_length: usize,
            buffer: *mut u8,
            room: usize,
        ) -> u64;
        pub fn trivsome_write_quote_numbers(
            seq: u32,
            bytes: *const [u8; 9],
            time: u64,
            amounts: *const [u32; 23],
            buffer: *mut u8,
            room: usize,
        ) -> u64;
        pub fn trivsome_write_prices_numbers(
            seq: u32,
            count: u8,
            codes: *const [u8; 60],
            amounts: *const [u32; 50],
            times: *const [u64; 10],
            buffer: *mut u8,
            room: usize,
        ) -> u64;
        pub fn trivsome_write_halt_numbers(
            seq: u32,
            code: *const [u8; 6],
            event: *const [u32; 4],
            buffer: *mut u8,
            room: usize,
        ) -> u64;
        pub fn trivsome_read_index_numbers(
            line: *const u8,
            length: usize,
            at: usize,
            contract: *mut [u8; 8],
            bytes: *mut [u8; 4],
            numbers: *mut [u32; 3],
        ) -> u64;
        pub fn trivsome_write_index_numbers(
            seq: u32,
            contract: *const [u8; 8],
            bytes: *const [u8; 4],
            numbers: *const [u32; 3],
            buffer: *mut u8,
            room: usize,
        ) -> u64;
        pub fn trivsome_derivatives_read(line: *const u8, length: usize, at: usize) -> u64;
        pub fn trivsome_derivatives_move(line: *const u8, length: usize, at: usize, closed: bool) -> u64;
        pub fn trivsome_derivatives_walk(tally: *mut [u64; 4], line: *const u8, length: usize, closed: bool) -> u64;
        pub fn trivsome_move(line: *const u8, length: usize, at: usize, closed: bool) -> u64;
        pub fn trivsome_walk(tally: *mut [u64; 4], line: *const u8, length: usize, closed: bool) -> u64;
        pub fn trivsome_clear(ends: *mut [u32; 129], floor: *mut u32, given_up: *mut u32);
        pub fn trivsome_arrive(ends: *mut [u32; 129], floor: u32, given_up: u32, n: u32) -> u64;
        pub fn trivsome_give_up(ends: *mut [u32; 129], floor: *mut u32, given_up: *mut u32) -> u64;
        pub fn trivsome_highest(ends: *const [u32; 129], floor: u32, given_up: u32) -> u64;
        pub fn trivsome_heard(ends: *const [u32; 129], floor: u32, given_up: u32) -> u64;
        pub fn trivsome_missing(ends: *const [u32; 129], floor: u32, given_up: u32) -> u64;
        pub fn trivsome_runs(ends: *const [u32; 129], floor: u32, given_up: u32) -> u64;
        pub fn trivsome_floor(ends: *const [u32; 129], floor: u32, given_up: u32) -> u64;
        pub fn trivsome_given_up(ends: *const [u32; 129], floor: u32, given_up: u32) -> u64;
        pub fn trivsome_run(ends: *const [u32; 129], floor: u32, given_up: u32, place: u32) -> u64;
        pub fn trivsome_board_clear(heads: *mut u64, head_count: usize, cells: *mut u32, cell_count: usize) -> u64;
        pub fn trivsome_board_take_numbers(
            heads: *mut u64,
            head_count: usize,
            cells: *mut u32,
            cell_count: usize,
            seq: u32,
            bytes: *const [u8; 9],
            time: u64,
            amounts: *const [u32; 23],
        ) -> u64;
        pub fn trivsome_board_ask_numbers(
            heads: *const u64,
            head_count: usize,
            cells: *const u32,
            cell_count: usize,
            code: *const [u8; 6],
            bytes: *mut [u8; 9],
            time: *mut u64,
            amounts: *mut [u32; 23],
        ) -> u64;
        pub fn trivsome_board_row_numbers(
            heads: *const u64,
            head_count: usize,
            cells: *const u32,
            cell_count: usize,
            place: usize,
            bytes: *mut [u8; 9],
            time: *mut u64,
            amounts: *mut [u32; 23],
        ) -> u64;
        pub fn trivsome_board_rows(heads: *const u64, head_count: usize, cells: *const u32, cell_count: usize) -> u64;
        pub fn trivsome_capture_clear(capture: *mut u8, size: usize) -> u64;
        pub fn trivsome_capture_append(capture: *mut u8, size: usize, payload: *const u8, length: usize) -> u64;
        pub fn trivsome_capture_append_cut(
            capture: *mut u8,
            size: usize,
            payload: *const u8,
            length: usize,
            stores: usize,
        ) -> u64;
        pub fn trivsome_capture_finished(capture: *const u8, size: usize) -> u64;
        pub fn trivsome_capture_payload(capture: *const u8, size: usize, place: usize) -> u64;
        pub fn trivsome_two_digits(byte: u8) -> u8;
        pub fn trivsome_digit_table(table: *mut [u8; 256]);
    }
}

// The fields of a quote and of a row stand as the numbers that are lent do: code, reveal, limit and status as nine bytes, then
// total, trade, bids and asks as 23 numbers. The slots of prices are 60 bytes and 50 numbers. Of an index value market, kind,
// length and status are four bytes, and sent, time and value three numbers.
macro_rules! assert_stands {
    ($whole:ty) => {
        let (bytes, amounts) = (offset_of!($whole, code), offset_of!($whole, total));
        assert!(offset_of!($whole, reveal) == bytes + 6);
        assert!(offset_of!($whole, limit) == bytes + 7);
        assert!(offset_of!($whole, status) == bytes + 8);
        assert!(offset_of!($whole, trade) == amounts + 4);
        assert!(offset_of!($whole, bids) == amounts + 12);
        assert!(offset_of!($whole, asks) == amounts + 52);
        assert!(bytes + 9 <= size_of::<$whole>() && amounts + 92 <= size_of::<$whole>() && amounts % 4 == 0);
    };
}

const _: () = {
    assert_stands!(Quote);
    assert_stands!(Row);
    assert!(size_of::<[crate::Pair; 5]>() == 40 && size_of::<[crate::Amounts; 10]>() == 200);
    assert!(size_of::<[crate::Code; 10]>() == 60);
    assert!(
        offset_of!(Index, time) == offset_of!(Index, sent) + 4
            && offset_of!(Index, value) == offset_of!(Index, sent) + 8
    );
    assert!(offset_of!(Index, kind) == offset_of!(Index, market) + 1);
    assert!(offset_of!(Index, length) == offset_of!(Index, market) + 2);
    assert!(offset_of!(Index, status) == offset_of!(Index, market) + 3);
    assert!(offset_of!(crate::Pair, price) == 0 && offset_of!(crate::Amounts, total) == 16);
};

/// The answer at a place of a line, alone.
#[inline]
pub fn read(line: &[u8], at: usize) -> u64 {
    // SAFETY: the line is lent for the call, with its length.
    unsafe { calls::trivsome_read(line.as_ptr(), line.len(), at) }
}

/// The answer, and a notice's category and text; the length of the text is the frame's without 14.
#[inline]
pub fn read_notice(line: &[u8], at: usize, category: &mut u8, text: &mut [u8; 60]) -> u64 {
    // SAFETY: the line is lent with its length, the rest by references that nothing else holds.
    unsafe { calls::trivsome_read_notice_numbers(line.as_ptr(), line.len(), at, category, text) }
}

/// The answer, and a halt's code and its four numbers: the event, records or time halted, resume, state.
#[inline]
pub fn read_halt(line: &[u8], at: usize, code: &mut [u8; 6], event: &mut [u32; 4]) -> u64 {
    // SAFETY: the line is lent with its length, the rest by references that nothing else holds.
    unsafe { calls::trivsome_read_halt_numbers(line.as_ptr(), line.len(), at, code, event) }
}

/// The answer, and a quote. Its own fields are lent; its number is in the outcome.
#[inline]
pub fn read_quote(line: &[u8], at: usize, quote: &mut Quote) -> u64 {
    let whole: *mut Quote = quote;
    // SAFETY: the three parts lie in the quote that is lent, apart and laid out as is asserted above.
    unsafe {
        let bytes = whole.byte_add(offset_of!(Quote, code)).cast();
        let time = whole.byte_add(offset_of!(Quote, time)).cast();
        let amounts = whole.byte_add(offset_of!(Quote, total)).cast();
        calls::trivsome_read_quote_numbers(line.as_ptr(), line.len(), at, bytes, time, amounts)
    }
}

/// The answer, and prices. Their own fields are lent; their number is in the outcome.
#[inline]
pub fn read_prices(line: &[u8], at: usize, prices: &mut Prices) -> u64 {
    let Prices { count, codes, amounts, times, .. } = prices;
    let (codes, amounts): (*mut _, *mut _) = (codes, amounts);
    // SAFETY: the four fields are apart; ten codes are 60 bytes, and ten times five amounts 50 numbers, as asserted above.
    unsafe {
        calls::trivsome_read_prices_numbers(line.as_ptr(), line.len(), at, count, codes.cast(), amounts.cast(), times)
    }
}

/// Writes a notice: 0 with the length, 14 or 15.
#[inline]
pub fn write_notice(seq: u32, category: u8, text: &[u8], buffer: &mut [u8]) -> u64 {
    let (room, buffer) = (buffer.len(), buffer.as_mut_ptr());
    // SAFETY: text and buffer are lent for the call, each with its length.
    unsafe { calls::trivsome_write_notice_numbers(seq, category, text.as_ptr(), text.len(), buffer, room) }
}

/// Writes a halt of its four numbers: 0 with the length, 14 or 15.
#[inline]
pub fn write_halt(seq: u32, code: &[u8; 6], event: &[u32; 4], buffer: &mut [u8]) -> u64 {
    let (room, buffer) = (buffer.len(), buffer.as_mut_ptr());
    // SAFETY: the buffer is lent with its length, the rest by references.
    unsafe { calls::trivsome_write_halt_numbers(seq, code, event, buffer, room) }
}

/// Writes a quote, whose own fields are lent: 0 with the length, 14 or 15.
#[inline]
pub fn write_quote(quote: &Quote, buffer: &mut [u8]) -> u64 {
    let whole: *const Quote = quote;
    let (room, buffer) = (buffer.len(), buffer.as_mut_ptr());
    // SAFETY: both parts lie in the quote that is lent, laid out as is asserted above.
    unsafe {
        let bytes = whole.byte_add(offset_of!(Quote, code)).cast();
        let amounts = whole.byte_add(offset_of!(Quote, total)).cast();
        calls::trivsome_write_quote_numbers(quote.seq, bytes, quote.time, amounts, buffer, room)
    }
}

/// Writes prices, whose own fields are lent: 0 with the length, 14 or 15.
#[inline]
pub fn write_prices(prices: &Prices, buffer: &mut [u8]) -> u64 {
    let Prices { seq, count, codes, amounts, times } = prices;
    let (codes, amounts): (*const _, *const _) = (codes, amounts);
    let (room, buffer) = (buffer.len(), buffer.as_mut_ptr());
    // SAFETY: ten codes are 60 bytes, and ten times five amounts 50 numbers, as asserted above.
    unsafe { calls::trivsome_write_prices_numbers(*seq, *count, codes.cast(), amounts.cast(), times, buffer, room) }
}

/// The answer at a place of a line of the derivatives exchange, alone.
#[inline]
pub fn derivatives_read(line: &[u8], at: usize) -> u64 {
    // SAFETY: the line is lent for the call, with its length.
    unsafe { calls::trivsome_derivatives_read(line.as_ptr(), line.len(), at) }
}

/// The answer, and an index value. Its own fields are lent; its number is in the outcome.
#[inline]
pub fn read_index(line: &[u8], at: usize, index: &mut Index) -> u64 {
    let whole: *mut Index = index;
    // SAFETY: the three parts lie in the index value that is lent, apart and laid out as is asserted above.
    unsafe {
        let contract = whole.byte_add(offset_of!(Index, contract)).cast();
        let bytes = whole.byte_add(offset_of!(Index, market)).cast();
        let numbers = whole.byte_add(offset_of!(Index, sent)).cast();
        calls::trivsome_read_index_numbers(line.as_ptr(), line.len(), at, contract, bytes, numbers)
    }
}

/// Writes an index value, whose own fields are lent: 0 with the length, 14 or 15.
#[inline]
pub fn write_index(index: &Index, buffer: &mut [u8]) -> u64 {
    let whole: *const Index = index;
    let (room, buffer) = (buffer.len(), buffer.as_mut_ptr());
    // SAFETY: the three parts lie in the index value that is lent, laid out as is asserted above.
    unsafe {
        let contract = whole.byte_add(offset_of!(Index, contract)).cast();
        let bytes = whole.byte_add(offset_of!(Index, market)).cast();
        let numbers = whole.byte_add(offset_of!(Index, sent)).cast();
        calls::trivsome_write_index_numbers(index.seq, contract, bytes, numbers, buffer, room)
    }
}

/// The move at a place of a line of the derivatives exchange, 0 bytes long where the walk stops.
#[inline]
pub fn derivatives_move_at(line: &[u8], at: usize, closed: bool) -> u64 {
    // SAFETY: the line is lent for the call, with its length.
    unsafe { calls::trivsome_derivatives_move(line.as_ptr(), line.len(), at, closed) }
}

/// Walks a line of the derivatives exchange and moves a tally on: 0 or 16.
#[inline]
pub fn derivatives_walk(tally: &mut [u64; 4], line: &[u8], closed: bool) -> u64 {
    // SAFETY: the line is lent with its length, the tally by a reference that nothing else holds.
    unsafe { calls::trivsome_derivatives_walk(tally, line.as_ptr(), line.len(), closed) }
}

/// The move at a place of a line, 0 bytes long where the walk stops.
#[inline]
pub fn move_at(line: &[u8], at: usize, closed: bool) -> u64 {
    // SAFETY: the line is lent for the call, with its length.
    unsafe { calls::trivsome_move(line.as_ptr(), line.len(), at, closed) }
}

/// Walks a line and moves a tally on, of accepted, refused, skipped and waiting bytes: 0 or 16.
#[inline]
pub fn walk(tally: &mut [u64; 4], line: &[u8], closed: bool) -> u64 {
    // SAFETY: the line is lent with its length, the tally by a reference that nothing else holds.
    unsafe { calls::trivsome_walk(tally, line.as_ptr(), line.len(), closed) }
}

/// Makes any record a fresh ledger's.
#[inline]
pub fn clear(ends: &mut [u32; 129], floor: &mut u32, given_up: &mut u32) {
    // SAFETY: all three are lent by references that nothing else holds.
    unsafe { calls::trivsome_clear(ends, floor, given_up) }
}

/// Records a number: 0, 20, 21, 25 or 22.
#[inline]
pub fn arrive(ends: &mut [u32; 129], floor: u32, given_up: u32, n: u32) -> u64 {
    // SAFETY: the ends are lent by a reference that nothing else holds.
    unsafe { calls::trivsome_arrive(ends, floor, given_up, n) }
}

/// Gives the lowest missing run up: 0, 20 or 24.
#[inline]
pub fn give_up(ends: &mut [u32; 129], floor: &mut u32, given_up: &mut u32) -> u64 {
    // SAFETY: all three are lent by references that nothing else holds.
    unsafe { calls::trivsome_give_up(ends, floor, given_up) }
}

/// The highest number heard: 0 or 20.
#[inline]
pub fn highest(ends: &[u32; 129], floor: u32, given_up: u32) -> u64 {
    // SAFETY: the ends are lent by a reference.
    unsafe { calls::trivsome_highest(ends, floor, given_up) }
}

/// How many numbers are heard: 0 or 20.
#[inline]
pub fn heard(ends: &[u32; 129], floor: u32, given_up: u32) -> u64 {
    // SAFETY: the ends are lent by a reference.
    unsafe { calls::trivsome_heard(ends, floor, given_up) }
}

/// How many numbers between the floor and the highest are missing: 0 or 20.
#[inline]
pub fn missing(ends: &[u32; 129], floor: u32, given_up: u32) -> u64 {
    // SAFETY: the ends are lent by a reference.
    unsafe { calls::trivsome_missing(ends, floor, given_up) }
}

/// How many missing runs there are: 0 or 20.
#[inline]
pub fn runs(ends: &[u32; 129], floor: u32, given_up: u32) -> u64 {
    // SAFETY: the ends are lent by a reference.
    unsafe { calls::trivsome_runs(ends, floor, given_up) }
}

/// The floor: 0 or 20.
#[inline]
pub fn floor(ends: &[u32; 129], floor: u32, given_up: u32) -> u64 {
    // SAFETY: the ends are lent by a reference.
    unsafe { calls::trivsome_floor(ends, floor, given_up) }
}

/// How many numbers were given up: 0 or 20.
#[inline]
pub fn given_up(ends: &[u32; 129], floor: u32, given_up: u32) -> u64 {
    // SAFETY: the ends are lent by a reference.
    unsafe { calls::trivsome_given_up(ends, floor, given_up) }
}

/// The missing run at a place: 0, 20 or 23.
#[inline]
pub fn run(ends: &[u32; 129], floor: u32, given_up: u32, place: u32) -> u64 {
    // SAFETY: the ends are lent by a reference.
    unsafe { calls::trivsome_run(ends, floor, given_up, place) }
}

/// Makes every row of a board free: 0 or 50.
#[inline]
pub fn board_clear(heads: &mut [u64], cells: &mut [u32]) -> u64 {
    let (head_count, heads) = (heads.len(), heads.as_mut_ptr());
    let (cell_count, cells) = (cells.len(), cells.as_mut_ptr());
    // SAFETY: heads and cells are lent for the call, each with its length.
    unsafe { calls::trivsome_board_clear(heads, head_count, cells, cell_count) }
}

/// Takes a quote, whose own fields are lent: 0, 50, 14 or 52.
#[inline]
pub fn board_take(heads: &mut [u64], cells: &mut [u32], quote: &Quote) -> u64 {
    let whole: *const Quote = quote;
    let (head_count, heads) = (heads.len(), heads.as_mut_ptr());
    let (cell_count, cells) = (cells.len(), cells.as_mut_ptr());
    // SAFETY: heads and cells are lent, each with its length; both parts lie in the quote that is lent, laid out as is
    // asserted above.
    unsafe {
        let bytes = whole.byte_add(offset_of!(Quote, code)).cast();
        let amounts = whole.byte_add(offset_of!(Quote, total)).cast();
        calls::trivsome_board_take_numbers(heads, head_count, cells, cell_count, quote.seq, bytes, quote.time, amounts)
    }
}

/// The row of a code, put straight into the one that is lent: 0, 50 or 51.
#[inline]
pub fn board_ask(heads: &[u64], cells: &[u32], code: &[u8; 6], row: &mut Row) -> u64 {
    let whole: *mut Row = row;
    let (head_count, heads) = (heads.len(), heads.as_ptr());
    let (cell_count, cells) = (cells.len(), cells.as_ptr());
    // SAFETY: heads and cells are lent, each with its length; the three parts lie in the row that is lent, apart and laid
    // out as is asserted above.
    unsafe {
        let bytes = whole.byte_add(offset_of!(Row, code)).cast();
        let time = whole.byte_add(offset_of!(Row, time)).cast();
        let amounts = whole.byte_add(offset_of!(Row, total)).cast();
        calls::trivsome_board_ask_numbers(heads, head_count, cells, cell_count, code, bytes, time, amounts)
    }
}

/// The row at a place, likewise: 0, 50 or 51.
#[inline]
pub fn board_row(heads: &[u64], cells: &[u32], place: usize, row: &mut Row) -> u64 {
    let whole: *mut Row = row;
    let (head_count, heads) = (heads.len(), heads.as_ptr());
    let (cell_count, cells) = (cells.len(), cells.as_ptr());
    // SAFETY: heads and cells are lent, each with its length; the three parts lie in the row that is lent, apart and laid
    // out as is asserted above.
    unsafe {
        let bytes = whole.byte_add(offset_of!(Row, code)).cast();
        let time = whole.byte_add(offset_of!(Row, time)).cast();
        let amounts = whole.byte_add(offset_of!(Row, total)).cast();
        calls::trivsome_board_row_numbers(heads, head_count, cells, cell_count, place, bytes, time, amounts)
    }
}

/// How many rows are in use: 0 or 50.
#[inline]
pub fn board_rows(heads: &[u64], cells: &[u32]) -> u64 {
    // SAFETY: heads and cells are lent for the call, each with its length.
    unsafe { calls::trivsome_board_rows(heads.as_ptr(), heads.len(), cells.as_ptr(), cells.len()) }
}

/// Makes a fresh capture: 0 or 34.
#[inline]
pub fn capture_clear(capture: &mut [u8]) -> u64 {
    let (size, capture) = (capture.len(), capture.as_mut_ptr());
    // SAFETY: the capture is lent for the call, with its size.
    unsafe { calls::trivsome_capture_clear(capture, size) }
}

/// Appends a payload: 0, 34, 31, 33 or 32.
#[inline]
pub fn capture_append(capture: &mut [u8], payload: &[u8]) -> u64 {
    let (size, capture) = (capture.len(), capture.as_mut_ptr());
    // SAFETY: capture and payload are lent for the call, each with its length.
    unsafe { calls::trivsome_capture_append(capture, size, payload.as_ptr(), payload.len()) }
}

/// Appends a payload with the power cut after so many stores: 0, 34, 31, 33 or 32.
#[inline]
pub fn capture_append_cut(capture: &mut [u8], payload: &[u8], stores: usize) -> u64 {
    let (size, capture) = (capture.len(), capture.as_mut_ptr());
    // SAFETY: capture and payload are lent for the call, each with its length.
    unsafe { calls::trivsome_capture_append_cut(capture, size, payload.as_ptr(), payload.len(), stores) }
}

/// How many blocks are finished: 0, 34 or 33.
#[inline]
pub fn capture_finished(capture: &[u8]) -> u64 {
    // SAFETY: the capture is lent for the call, with its size.
    unsafe { calls::trivsome_capture_finished(capture.as_ptr(), capture.len()) }
}

/// The payload at a place, as a part of the capture: 0, 34 or 33.
#[inline]
pub fn capture_payload(capture: &[u8], place: usize) -> u64 {
    // SAFETY: the capture is lent for the call, with its size.
    unsafe { calls::trivsome_capture_payload(capture.as_ptr(), capture.len(), place) }
}

/// The number of a byte's two digits, 0 to 99, or 255 where one is bad.
#[inline]
pub fn two_digits(byte: u8) -> u8 {
    // SAFETY: nothing is lent.
    unsafe { calls::trivsome_two_digits(byte) }
}

/// Fills a table: at the place of every byte is then what `two_digits` answers of it.
#[inline]
pub fn digit_table(table: &mut [u8; 256]) {
    // SAFETY: the table is lent by a reference that nothing else holds.
    unsafe { calls::trivsome_digit_table(table) }
}
