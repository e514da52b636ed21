//! A message of any of the four formats.

use crate::halt::{read_halt, write_halt, Halt};
use crate::notice::{read_notice, write_notice, Notice};
use crate::outcome::{read, Answer, Frame, NotRead, NotWritten};
use crate::prices::{read_prices, write_prices, Prices};
use crate::quote::{read_quote, write_quote, Quote};

/// A message is looked at where it was read.
#[expect(clippy::large_enum_variant, reason = "a box would cost an allocation for each frame")]
#[derive(Clone, Copy, Debug, PartialEq, Eq, Hash)]
pub enum Message {
    /// Format five.
    Notice(Notice),
    /// Format six.
    Quote(Quote),
    /// Format twelve.
    Prices(Prices),
    /// Format nineteen.
    Halt(Halt),
}

/// Reads the frame at a place of a line, of whichever format: its answer first, then its message, so that a caller who wants
/// one format alone is better served by that format's call.
pub fn read_message(line: &[u8], at: usize) -> Result<(Frame, Message), Answer> {
    let outcome = read(line, at);
    let message = match outcome.format() {
        Notice::FORMAT => read_notice(line, at).map(|(frame, notice)| (frame, Message::Notice(notice))),
        Quote::FORMAT => read_quote(line, at).map(|(frame, quote)| (frame, Message::Quote(quote))),
        Prices::FORMAT => read_prices(line, at).map(|(frame, prices)| (frame, Message::Prices(prices))),
        Halt::FORMAT => read_halt(line, at).map(|(frame, halt)| (frame, Message::Halt(halt))),
        _ => return Err(outcome.answer()),
    };
    message.map_err(NotRead::answer)
}

/// Writes a message as a frame at the start of a buffer, and gives the frame's length. Bytes behind the frame stay, and on a
/// refusal all.
pub fn write(message: &Message, buffer: &mut [u8]) -> Result<usize, NotWritten> {
    match message {
        Message::Notice(notice) => write_notice(notice, buffer),
        Message::Quote(quote) => write_quote(quote, buffer),
        Message::Prices(prices) => write_prices(prices, buffer),
        Message::Halt(halt) => write_halt(halt, buffer),
    }
}
