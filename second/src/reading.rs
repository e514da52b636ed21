//! The reading: what the bytes from a place on are, by the numbers 0 to 13 of docs/RULES.md.

use crate::five::{self, Notice};
use crate::nineteen::{self, Halt};
use crate::outline::{outline, Header, BUSINESS, HEAD, TAIL};
use crate::places;
use crate::six::{self, Quote};
use crate::twelve::{self, Prices};

/// Why there is no whole outline: 1 to 5.
#[derive(Clone, Copy, Debug, PartialEq, Eq)]
pub enum NoFrame {
    NotAStart = 1,
    TooFewBytes = 2,
    Length = 3,
    End = 4,
    Check = 5,
}

/// Why a frame with a whole outline is refused: 6 to 13.
#[derive(Clone, Copy, Debug, PartialEq, Eq)]
pub enum Refusal {
    HeaderDigit = 6,
    Format = 7,
    Version = 8,
    Length = 9,
    Levels = 10,
    Digit = 11,
    Time = 12,
    Field = 13,
}

/// A message is looked at where it was read.
#[expect(clippy::large_enum_variant, reason = "a box would cost an allocation for each frame")]
#[derive(Clone, Copy, Debug, PartialEq, Eq)]
pub enum Message {
    Five(Notice),
    Six(Quote),
    Twelve(Prices),
    Nineteen(Halt),
}

impl Message {
    pub fn format(&self) -> u8 {
        match self {
            Message::Five(_) => five::FORMAT,
            Message::Six(_) => six::FORMAT,
            Message::Twelve(_) => twelve::FORMAT,
            Message::Nineteen(_) => nineteen::FORMAT,
        }
    }

    /// The frame's number.
    pub fn number(&self) -> u32 {
        match self {
            Message::Five(notice) => notice.number,
            Message::Six(quote) => quote.number,
            Message::Twelve(prices) => prices.number,
            Message::Nineteen(halt) => halt.number,
        }
    }
}

/// What a reading says, with the messages of an exchange. A place is that of the first bad half, for 6, 11, and 3 where a digit
/// is bad.
#[derive(Clone, Copy, Debug, PartialEq, Eq)]
pub enum Answer<M = Message> {
    Accepted { length: usize, message: M },
    Refused { length: usize, why: Refusal, place: Option<usize> },
    NoFrame { why: NoFrame, place: Option<usize> },
}

impl<M> Answer<M> {
    /// The number in the rules.
    pub fn number(&self) -> u8 {
        match *self {
            Answer::Accepted { .. } => 0,
            Answer::Refused { why, .. } => why as u8,
            Answer::NoFrame { why, .. } => why as u8,
        }
    }

    /// The frame's length, for 0 and 6 to 13.
    pub fn length(&self) -> Option<usize> {
        match *self {
            Answer::Accepted { length, .. } | Answer::Refused { length, .. } => Some(length),
            Answer::NoFrame { .. } => None,
        }
    }

    /// Where the first bad half is, in halves from the frame's first byte.
    pub fn place(&self) -> Option<usize> {
        match *self {
            Answer::Accepted { .. } => None,
            Answer::Refused { place, .. } | Answer::NoFrame { place, .. } => place,
        }
    }

    /// The message, for 0.
    pub fn message(&self) -> Option<&M> {
        match self {
            Answer::Accepted { message, .. } => Some(message),
            _ => None,
        }
    }
}

/// Reads the frame that the bytes begin with. Bytes behind it are not looked at.
pub fn read(bytes: &[u8]) -> Answer {
    let length = match outline(bytes) {
        Ok(length) => length,
        Err(why) => return Answer::NoFrame { why, place: places::of_no_frame(why, bytes) },
    };
    let frame = &bytes[..length];
    match read_frame(frame) {
        Ok(message) => Answer::Accepted { length, message },
        Err(why) => Answer::Refused { length, why, place: places::of_refusal(why, frame) },
    }
}

/// Reads from a place in a line; at or past the line's end there are no bytes.
pub fn read_at(line: &[u8], place: usize) -> Answer {
    read(line.get(place..).unwrap_or(&[]))
}

fn read_frame(frame: &[u8]) -> Result<Message, Refusal> {
    let header = Header::read(frame)?;
    if header.business != BUSINESS {
        return Err(Refusal::Format);
    }
    let (version, lengths) = match header.format {
        five::FORMAT => (five::VERSION, five::LENGTHS),
        six::FORMAT => (six::VERSION, six::LENGTHS),
        twelve::FORMAT => (twelve::VERSION, twelve::LENGTHS),
        nineteen::FORMAT => (nineteen::VERSION, nineteen::LENGTHS),
        _ => return Err(Refusal::Format),
    };
    if header.version != version {
        return Err(Refusal::Version);
    }
    if !lengths.contains(&frame.len()) {
        return Err(Refusal::Length);
    }
    let body = &frame[HEAD..frame.len() - TAIL];
    match header.format {
        five::FORMAT => Notice::read(header.number, body).map(Message::Five),
        six::FORMAT => Quote::read(header.number, body).map(Message::Six),
        twelve::FORMAT => Prices::read(header.number, body).map(Message::Twelve),
        _ => Halt::read(header.number, body).map(Message::Nineteen),
    }
}
