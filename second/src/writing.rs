//! The writing: a message's frame at the beginning of a lent buffer, or 14 or 15 and the buffer as it came.

use crate::outline::{close, HEAD, TAIL};
use crate::reading::Message;
use crate::{five, nineteen, six, twelve};

#[derive(Clone, Copy, Debug, PartialEq, Eq)]
pub enum NotWritten {
    /// The message breaks a field's rule or range.
    Message = 14,
    /// The buffer is shorter than the frame.
    Buffer = 15,
}

impl NotWritten {
    /// The number in the rules.
    pub fn number(self) -> u8 {
        self as u8
    }
}

/// Writes the frame and gives its length. Bytes behind the frame keep what they held.
pub fn write(message: &Message, buffer: &mut [u8]) -> Result<usize, NotWritten> {
    let (keeps_rules, version) = match message {
        Message::Five(notice) => (notice.keeps_rules(), five::VERSION),
        Message::Six(quote) => (quote.keeps_rules(), six::VERSION),
        Message::Twelve(prices) => (prices.keeps_rules(), twelve::VERSION),
        Message::Nineteen(halt) => (halt.keeps_rules(), nineteen::VERSION),
    };
    if !keeps_rules {
        return Err(NotWritten::Message);
    }
    let length = match message {
        Message::Five(notice) => notice.length(),
        Message::Six(quote) => quote.length(),
        Message::Twelve(prices) => prices.length(),
        Message::Nineteen(halt) => halt.length(),
    };
    let frame = buffer.get_mut(..length).ok_or(NotWritten::Buffer)?;
    let body = &mut frame[HEAD..length - TAIL];
    match message {
        Message::Five(notice) => notice.write(body),
        Message::Six(quote) => quote.write(body),
        Message::Twelve(prices) => prices.write(body),
        Message::Nineteen(halt) => halt.write(body),
    }
    close(frame, message.format(), version, message.number());
    Ok(length)
}
