//! What a reading and a writing answer.

use std::fmt;

use crate::raw;

/// A reading's answer as the library gives it: its number in the rules, format and length in one number, and above them the
/// sequence number of an accepted frame, or the place of a refused one's bad digit.
#[derive(Clone, Copy, PartialEq, Eq, Hash)]
#[repr(transparent)]
pub struct Outcome(u64);

/// An accepted frame.
#[derive(Clone, Copy, Debug, PartialEq, Eq, Hash)]
pub struct Frame {
    /// 5, 6, 12 or 19; on the derivatives exchange 60 or 64.
    pub format: u8,
    /// Its number.
    pub seq: u32,
    /// Its whole length in bytes.
    pub length: usize,
}

/// The same as one of three cases.
#[derive(Clone, Copy, Debug, PartialEq, Eq, Hash)]
pub enum Answer {
    /// 0.
    Accepted(Frame),
    /// 1 to 5: no whole frame stands here.
    NoFrame {
        /// The number in the rules.
        number: u8,
        /// Beside 3 where a digit of the length is bad: its place, as of [`Outcome::bad_half`].
        bad_half: Option<u16>,
    },
    /// 6 to 13: a whole frame that breaks a rule.
    Refused {
        /// The number in the rules.
        number: u8,
        /// The frame's whole length in bytes.
        length: usize,
        /// Beside 6 and 11: the bad digit's place, as of [`Outcome::bad_half`].
        bad_half: Option<u16>,
    },
}

/// Why a reading of one format gives no message. What was lent is as it came.
#[derive(Clone, Copy, Debug, PartialEq, Eq, Hash)]
pub enum NotRead {
    /// 1 to 5: no whole frame stands here.
    NoFrame {
        /// The number in the rules.
        number: u8,
        /// Beside 3 where a digit of the length is bad: its place, as of [`Outcome::bad_half`].
        bad_half: Option<u16>,
    },
    /// 6 to 13: a whole frame that breaks a rule.
    Refused {
        /// The number in the rules.
        number: u8,
        /// The frame's whole length in bytes.
        length: usize,
        /// Beside 6 and 11: the bad digit's place, as of [`Outcome::bad_half`].
        bad_half: Option<u16>,
    },
    /// An accepted frame, which is of another format.
    OtherFormat(Frame),
}

/// Why a message was not written. The buffer is as it came.
#[derive(Clone, Copy, Debug, PartialEq, Eq, Hash)]
pub enum NotWritten {
    /// 14: the message breaks a field's rule or range.
    Message,
    /// 15: the buffer is shorter than the frame.
    Buffer,
}

/// Reads the frame at a place of a line: the answer alone.
#[inline]
pub fn read(line: &[u8], at: usize) -> Outcome {
    Outcome::of(raw::read(line, at))
}

impl Outcome {
    #[inline]
    pub(crate) fn of(outcome: u64) -> Outcome {
        Outcome(outcome)
    }

    /// The number in the rules, 0 to 13.
    #[inline]
    pub fn number(self) -> u8 {
        self.0 as u8
    }

    /// The format of an accepted frame, else 0.
    #[inline]
    pub fn format(self) -> u8 {
        (self.0 >> 8) as u8
    }

    /// The whole frame's length for 0 and 6 to 13, else 0.
    #[inline]
    pub fn length(self) -> usize {
        usize::from((self.0 >> 16) as u16)
    }

    /// The number of an accepted frame, else 0.
    #[inline]
    pub fn seq(self) -> u32 {
        if self.number() == 0 {
            self.above()
        } else {
            0
        }
    }

    /// The place of the first bad digit: for 6 and 11, and for 3 where a digit of the length is the cause.
    ///
    /// Places are half bytes, counted from 0 at the frame's first byte, the 27: `frame[place / 2]`, which is byte `place / 2 + 1`
    /// from 1, has it in its high half if `place` is even, and in its low half if it is odd. A price's first half of 1 to 9 is a bad
    /// digit too.
    #[inline]
    pub fn bad_half(self) -> Option<u16> {
        match self.number() {
            0 => None,
            _ => (self.above() as u16).checked_sub(1),
        }
    }

    /// What stands above the length: an accepted frame's number; of a refusal a place and one, or 0 for none.
    #[inline]
    fn above(self) -> u32 {
        (self.0 >> 32) as u32
    }

    /// Whether a frame of this format is accepted.
    #[inline]
    pub fn accepts(self, format: u8) -> bool {
        self.0 as u16 == u16::from(format) << 8
    }

    /// The same as one of three cases.
    #[inline]
    pub fn answer(self) -> Answer {
        match self.number() {
            0 => Answer::Accepted(self.frame()),
            number @ 1..=5 => Answer::NoFrame { number, bad_half: self.bad_half() },
            number => Answer::Refused { number, length: self.length(), bad_half: self.bad_half() },
        }
    }

    /// Of an accepted frame.
    #[inline]
    fn frame(self) -> Frame {
        Frame { format: self.format(), seq: self.above(), length: self.length() }
    }

    /// The accepted frame, if it is of this format.
    #[inline]
    pub(crate) fn frame_of(self, format: u8) -> Result<Frame, NotRead> {
        if self.accepts(format) {
            return Ok(self.frame());
        }
        Err(match self.answer() {
            Answer::Accepted(frame) => NotRead::OtherFormat(frame),
            Answer::NoFrame { number, bad_half } => NotRead::NoFrame { number, bad_half },
            Answer::Refused { number, length, bad_half } => NotRead::Refused { number, length, bad_half },
        })
    }
}

impl fmt::Debug for Outcome {
    fn fmt(&self, f: &mut fmt::Formatter) -> fmt::Result {
        self.answer().fmt(f)
    }
}

impl Answer {
    /// The number in the rules.
    #[inline]
    pub fn number(self) -> u8 {
        match self {
            Answer::Accepted(_) => 0,
            Answer::NoFrame { number, .. } | Answer::Refused { number, .. } => number,
        }
    }

    /// The length of the whole frame that it speaks of, 0 where it speaks of none.
    #[inline]
    pub fn length(self) -> usize {
        match self {
            Answer::Accepted(frame) => frame.length,
            Answer::NoFrame { .. } => 0,
            Answer::Refused { length, .. } => length,
        }
    }

    /// The place of the first bad digit, as of [`Outcome::bad_half`].
    #[inline]
    pub fn bad_half(self) -> Option<u16> {
        match self {
            Answer::Accepted(_) => None,
            Answer::NoFrame { bad_half, .. } | Answer::Refused { bad_half, .. } => bad_half,
        }
    }
}

impl fmt::Display for Answer {
    fn fmt(&self, f: &mut fmt::Formatter) -> fmt::Result {
        let why = match self.number() {
            0 => "accepted",
            1 => "the first byte is not 27",
            2 => "there are too few bytes",
            3 if self.bad_half().is_some() => "a bad digit in the length",
            3 => "a frame of over 1,024 bytes, or of the stock exchange under 14",
            4 => "the last two bytes are not 0D 0A",
            5 => "another check byte",
            6 => "a bad digit in the header",
            7 => "another business or format, or another market or kind",
            8 => "another version",
            9 => "a length that the format does not have",
            10 => "a level count of 6 or 7, or levels where only the trade is sent",
            11 => "a bad digit in the body",
            12 => "a time that breaks its rule",
            _ => "a field that breaks its rule",
        };
        write!(f, "{}: {why}", self.number())?;
        let Some(half) = self.bad_half() else { return Ok(()) };
        write!(
            f,
            ", at half {half} (the {} half of byte {}, from 1)",
            ["high", "low"][usize::from(half % 2)],
            half / 2 + 1
        )
    }
}

impl std::error::Error for Answer {}

impl NotRead {
    /// The reading's answer, which is `Accepted` for a frame of another format.
    #[inline]
    pub fn answer(self) -> Answer {
        match self {
            NotRead::NoFrame { number, bad_half } => Answer::NoFrame { number, bad_half },
            NotRead::Refused { number, length, bad_half } => Answer::Refused { number, length, bad_half },
            NotRead::OtherFormat(frame) => Answer::Accepted(frame),
        }
    }

    /// The place of the first bad digit, as of [`Outcome::bad_half`].
    #[inline]
    pub fn bad_half(self) -> Option<u16> {
        self.answer().bad_half()
    }
}

impl fmt::Display for NotRead {
    fn fmt(&self, f: &mut fmt::Formatter) -> fmt::Result {
        match self {
            NotRead::OtherFormat(frame) => write!(f, "another format: {}", frame.format),
            refused => refused.answer().fmt(f),
        }
    }
}

impl std::error::Error for NotRead {}

impl NotWritten {
    /// The number in the rules.
    #[inline]
    pub fn number(self) -> u8 {
        match self {
            NotWritten::Message => 14,
            NotWritten::Buffer => 15,
        }
    }
}

impl fmt::Display for NotWritten {
    fn fmt(&self, f: &mut fmt::Formatter) -> fmt::Result {
        f.write_str(match self {
            NotWritten::Message => "14: the message breaks a rule",
            NotWritten::Buffer => "15: the buffer is too short",
        })
    }
}

impl std::error::Error for NotWritten {}

/// The length of the frame that was written.
#[inline]
pub(crate) fn written(outcome: u64) -> Result<usize, NotWritten> {
    let outcome = Outcome(outcome);
    match outcome.number() {
        0 => Ok(outcome.length()),
        14 => Err(NotWritten::Message),
        _ => Err(NotWritten::Buffer),
    }
}
