//! The exchange that a line carries, which the caller names: how its frames are read, and what the programs print of them. The
//! walk, the listing, the messages and the refusals are the same over all of them.

use std::ffi::OsString;
use std::fmt::{self, Display};

use crate::outline::GREATEST_LENGTH;
use crate::reading::{self, Answer, Message, Refusal};
use crate::refusals;

pub trait Exchange {
    type Message: Shown;

    /// A reading never looks further.
    const GREATEST_LENGTH: usize;

    /// The words for a length whose digits are good and that is out of range.
    const WHY_LENGTH: &'static str;

    /// Reads the frame that the bytes begin with. Bytes behind it are not looked at.
    fn read(bytes: &[u8]) -> Answer<Self::Message>;

    /// The words for the refusal of a frame, whose bytes they are.
    fn why_refused(why: Refusal, frame: &[u8]) -> &'static str;
}

/// What the programs print of a message.
pub trait Shown {
    /// The listing's format and number.
    fn listed(&self) -> (impl Display, u32);

    /// The whole JSON object of a message at its place.
    fn object(&self, at: u64, f: &mut fmt::Formatter) -> fmt::Result;
}

/// The stock exchange.
#[derive(Clone, Copy, Debug, PartialEq, Eq)]
pub struct Stock;

impl Exchange for Stock {
    type Message = Message;

    const GREATEST_LENGTH: usize = GREATEST_LENGTH;

    const WHY_LENGTH: &'static str = refusals::WHY_LENGTH;

    fn read(bytes: &[u8]) -> Answer {
        reading::read(bytes)
    }

    fn why_refused(why: Refusal, frame: &[u8]) -> &'static str {
        refusals::why_refused(why, frame)
    }
}

/// An exchange as the words behind a program's name name it.
#[derive(Clone, Copy, Debug, PartialEq, Eq)]
pub enum Named {
    /// By no word.
    Stock,
    /// By `derivatives-2015`.
    Derivatives2015,
}

/// What the words behind a program's name ask for.
pub fn named(words: &[OsString]) -> Option<Named> {
    match words {
        [] => Some(Named::Stock),
        [word] if word == "derivatives-2015" => Some(Named::Derivatives2015),
        _ => None,
    }
}

/// What is said of a program that is called with other words.
pub fn usage(program: &str) -> String {
    format!(
        "usage: {program} [derivatives-2015]\n\
         derivatives-2015: the line is one of the derivatives exchange, in the edition of 2015, and not of the stock exchange"
    )
}
