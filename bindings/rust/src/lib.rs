//! The proved library for programs in Rust. Every call takes any bytes and any numbers, and answers by the rules' numbers
//! (docs/RULES.md): frames at any place of a line are read and messages written, lines walked, frame numbers recorded, the last
//! quotes of stocks kept, lines kept through a power loss, and packed digits read. A line is one of the stock exchange, unless a
//! call names the derivatives exchange.
//!
//! ```
//! # let bytes = [0x1B, 0x00, 0x14, 0x01, 0x05, 0x01, 0x00, 0x00, 0x00, 0x01, 0x09, 0x19, 0x0D, 0x0A];
//! for step in trivsome::Moves::new(&bytes, trivsome::Line::Closed) {
//!     if let Ok((frame, quote)) = trivsome::read_quote(&bytes, step.at) {
//!         let Some(bids) = quote.bids() else { continue }; // only the trade is sent, and nothing is said of the sides
//!         for bid in bids {
//!             println!("{} {} {} x {}", frame.seq, quote.code, bid.price, bid.quantity);
//!         }
//!     }
//! }
//! ```
//!
//! A frame of another format is an answer of its own, of the calls that read one format:
//!
//! ```
//! # let notice = [0x1B, 0x00, 0x14, 0x01, 0x05, 0x01, 0x00, 0x00, 0x00, 0x01, 0x09, 0x19, 0x0D, 0x0A];
//! let why = trivsome::read_quote(&notice, 0).expect_err("it is no quote");
//! assert!(matches!(why, trivsome::NotRead::OtherFormat(frame) if frame.format == 5));
//! assert_eq!(why.to_string(), "another format: 5");
//! ```
//!
//! Where a digit is bad, an answer tells where the first one is, in half bytes from the frame's first byte on:
//!
//! ```
//! # let mut notice = [0x1B, 0x00, 0x14, 0x01, 0x05, 0x01, 0x00, 0x00, 0x00, 0x01, 0x09, 0x19, 0x0D, 0x0A];
//! notice[10] ^= 0x03; // the category, a byte of two digits, is now 0A
//! notice[11] ^= 0x03; // and the check byte goes with it
//! let why = trivsome::read(&notice, 0).answer();
//! assert_eq!((why.number(), why.length(), why.bad_half()), (11, 14, Some(21)));
//! assert_eq!(why.to_string(), "11: a bad digit in the body, at half 21 (the low half of byte 11, from 1)");
//! ```
//!
//! Index values of the derivatives exchange are in thousandths; its lines have calls of their own:
//!
//! ```
//! # let bytes = [0x41, 0x42];
//! for step in trivsome::Moves::derivatives(&bytes, trivsome::Line::Closed) {
//!     if let Ok((frame, index)) = trivsome::read_index(&bytes, step.at) {
//!         println!("{} {} {}", frame.seq, String::from_utf8_lossy(index.contract()), index.value);
//!     }
//! }
//! ```
//!
//! A board keeps what the quotes of each stock said last, and its sides through quotes that send only their trade:
//!
//! ```
//! # let bytes = [0x1B, 0x00, 0x14, 0x01, 0x05, 0x01, 0x00, 0x00, 0x00, 0x01, 0x09, 0x19, 0x0D, 0x0A];
//! let mut board = trivsome::Board::new();
//! for step in trivsome::Moves::new(&bytes, trivsome::Line::Closed) {
//!     if let Ok((_, quote)) = trivsome::read_quote(&bytes, step.at) {
//!         board.take(&quote)?;
//!     }
//! }
//! for row in &board {
//!     println!("{} {:?} {:?} {:?}", row.code, row.trade(), row.bids().first(), row.asks().first());
//! }
//! # Ok::<(), trivsome::NotTaken>(())
//! ```
//!
//! A capture keeps a line in blocks. If power goes in the middle of an append, every block that was finished is found again, and
//! never a part of one:
//!
//! ```
//! let mut capture = trivsome::Capture::new();
//! assert_eq!(capture.append(b"finished")?, 1);
//! assert_eq!(capture.append_cut(b"not finished", 300)?, 2); // the power goes after 300 of its stores
//! let found = trivsome::Capture::from_bytes(capture.bytes());
//! assert_eq!(found.payloads()?.collect::<Vec<_>>(), [b"finished"]);
//! assert_eq!(capture.append(b"finished too")?, 2);
//! # Ok::<(), trivsome::NotAppended>(())
//! ```
//!
//! Bytes of packed digits are read by a table that is taken once, and a single one by a call:
//!
//! ```
//! let table = trivsome::digit_table();
//! let time = [0x09_u8, 0x30, 0x5A].map(|byte| table[usize::from(byte)]);
//! assert_eq!(time, [9, 30, trivsome::BAD_DIGIT]);
//! assert_eq!([0x30, 0x5A].map(trivsome::two_digits), [Some(30), None]);
//! ```
//!
//! The calls themselves are in `raw`, with all the unsafe code that there is; the rest gives their numbers names.
#![deny(missing_docs)]

pub mod raw;

// `raw` alone may have unsafe code: here not even an attribute of their own lets it in.
#[forbid(unsafe_code)]
mod board;
#[forbid(unsafe_code)]
mod capture;
#[forbid(unsafe_code)]
mod digits;
#[forbid(unsafe_code)]
mod halt;
#[forbid(unsafe_code)]
mod index;
#[forbid(unsafe_code)]
mod ledger;
#[forbid(unsafe_code)]
mod message;
#[forbid(unsafe_code)]
mod notice;
#[forbid(unsafe_code)]
mod outcome;
#[forbid(unsafe_code)]
mod prices;
#[forbid(unsafe_code)]
mod quote;
#[forbid(unsafe_code)]
mod units;
#[forbid(unsafe_code)]
mod walking;

pub use board::{Board, NotTaken, Row, Rows};
pub use capture::{BadBlock, Capture, NotAppended, Payloads};
pub use digits::{digit_table, two_digits, BAD_DIGIT};
pub use halt::{read_halt, read_halt_into, write_halt, Event, Halt, Resume, Sending};
pub use index::{read_derivatives, read_index, read_index_into, write_index, Index};
pub use ledger::{Arrival, Ledger, LedgerRefusal, Run};
pub use message::{read_message, write, Message};
pub use notice::{read_notice, read_notice_into, write_notice, write_text, Notice};
pub use outcome::{read, Answer, Frame, NotRead, NotWritten, Outcome};
pub use prices::{read_prices, read_prices_into, write_prices, Amounts, Prices, Slot};
pub use quote::{read_quote, read_quote_into, write_quote, Quote};
pub use units::{Code, Pair, Price, Quantity, Thousandths, LONG_NINES, SHORT_NINES};
pub use walking::{Line, Move, Moves, Tally, TooMuch};
