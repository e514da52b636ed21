//! The capture of a line: blocks of payloads, which a power loss harms in no block that was finished.

use std::fmt;
use std::iter::FusedIterator;
use std::ops::RangeInclusive;

use crate::raw;

/// A capture of 128 blocks, each with a payload of 1 to 504 bytes. No call copies it.
///
/// An append stores all other bytes of its block first, and then the last byte of the number, which finishes the block. A power
/// loss before that store leaves the blocks that there were, and the place to the next append. So much is promised of the
/// capture's own memory; a file to which it is written is the caller's to sync, as the program `capture` does.
#[derive(Clone, PartialEq, Eq, Hash)]
pub struct Capture {
    bytes: Box<[u8; Capture::SIZE]>,
}

/// 33: a block with a number that is not 0, and not what appends leave: the number is not the block's place, the block follows
/// an unfinished one, or its used bytes, the zeros behind them or its check are wrong.
#[derive(Clone, Copy, Debug, PartialEq, Eq, Hash)]
pub struct BadBlock {
    /// The place of the first such block, from 1.
    pub place: usize,
}

impl BadBlock {
    /// The number in the rules.
    #[inline]
    pub fn number(self) -> u8 {
        33
    }
}

impl fmt::Display for BadBlock {
    fn fmt(&self, f: &mut fmt::Formatter) -> fmt::Result {
        write!(f, "33: block {} is bad", self.place)
    }
}

impl std::error::Error for BadBlock {}

/// Why a payload was not appended. The capture is as it was.
#[derive(Clone, Copy, Debug, PartialEq, Eq, Hash)]
pub enum NotAppended {
    /// 31: the payload is empty or has more than 504 bytes.
    Payload,
    /// 33: a block is bad.
    Bad(BadBlock),
    /// 32: all blocks are finished.
    Full,
}

impl NotAppended {
    /// The number in the rules.
    #[inline]
    pub fn number(self) -> u8 {
        match self {
            NotAppended::Payload => 31,
            NotAppended::Bad(block) => block.number(),
            NotAppended::Full => 32,
        }
    }
}

impl fmt::Display for NotAppended {
    fn fmt(&self, f: &mut fmt::Formatter) -> fmt::Result {
        match self {
            NotAppended::Payload => f.write_str("31: the payload is empty or has more than 504 bytes"),
            NotAppended::Bad(block) => block.fmt(f),
            NotAppended::Full => f.write_str("32: all blocks are finished"),
        }
    }
}

impl std::error::Error for NotAppended {}

impl From<BadBlock> for NotAppended {
    #[inline]
    fn from(block: BadBlock) -> NotAppended {
        NotAppended::Bad(block)
    }
}

impl Default for Capture {
    /// The fresh capture.
    #[inline]
    fn default() -> Capture {
        Capture::from_bytes(&[0; Capture::SIZE])
    }
}

impl Capture {
    /// The blocks of a capture.
    pub const BLOCKS: usize = 128;

    /// The bytes of a capture.
    pub const SIZE: usize = 512 * Capture::BLOCKS;

    /// The most bytes of a payload.
    pub const MOST: usize = 504;

    /// The fresh capture.
    #[inline]
    pub fn new() -> Capture {
        Capture::default()
    }

    /// A capture whose bytes were kept somewhere. They may be any: where a block is bad every call but the clearing says so.
    #[inline]
    pub fn from_bytes(bytes: &[u8; Capture::SIZE]) -> Capture {
        Capture { bytes: Box::new(*bytes) }
    }

    /// The bytes, to be kept somewhere.
    #[inline]
    pub fn bytes(&self) -> &[u8; Capture::SIZE] {
        &self.bytes
    }

    /// Makes the capture fresh, whatever it holds. Cut short by a power loss it may leave a bad block, until it is done again.
    #[inline]
    pub fn clear(&mut self) {
        raw::capture_clear(&mut self.bytes[..]);
    }

    /// Appends a payload at the first unfinished place, and tells the place; the first is 1.
    #[inline]
    pub fn append(&mut self, payload: &[u8]) -> Result<usize, NotAppended> {
        place(raw::capture_append(&mut self.bytes[..], payload))
    }

    /// The same, and the same answer, with the power cut after so many of its 512 bytes are stored, one after the other: the
    /// capture is left as such a cut leaves it. With 512 or more the append is finished.
    ///
    /// ```
    /// # use trivsome::{Capture, NotAppended};
    /// let mut capture = Capture::new();
    /// for stores in 0..512 {
    ///     assert_eq!(capture.append_cut(b"never finished", stores)?, 1);
    ///     assert_eq!(capture.finished()?, 0);
    /// }
    /// # Ok::<(), NotAppended>(())
    /// ```
    #[inline]
    pub fn append_cut(&mut self, payload: &[u8], stores: usize) -> Result<usize, NotAppended> {
        place(raw::capture_append_cut(&mut self.bytes[..], payload, stores))
    }

    /// How many blocks are finished.
    #[inline]
    pub fn finished(&self) -> Result<usize, BadBlock> {
        above(raw::capture_finished(&self.bytes[..])).map(|outcome| (outcome >> 8) as usize)
    }

    /// The payload at a place; the first is 1. It is empty where the block is unfinished or there is no such place.
    #[inline]
    pub fn payload(&self, place: usize) -> Result<&[u8], BadBlock> {
        let outcome = above(raw::capture_payload(&self.bytes[..], place))?;
        let (start, length) = ((outcome >> 32) as usize, usize::from((outcome >> 16) as u16));
        Ok(&self.bytes[start..][..length])
    }

    /// The payloads of the finished blocks, by their places. Each is read by a call that looks at the whole capture.
    #[inline]
    pub fn payloads(&self) -> Result<Payloads<'_>, BadBlock> {
        Ok(Payloads { capture: self, places: 1..=self.finished()? })
    }
}

impl fmt::Debug for Capture {
    fn fmt(&self, f: &mut fmt::Formatter) -> fmt::Result {
        f.debug_struct("Capture").field("finished", &self.finished()).finish_non_exhaustive()
    }
}

/// The payloads of a capture's finished blocks, by their places.
#[derive(Clone, Debug)]
pub struct Payloads<'a> {
    capture: &'a Capture,
    places: RangeInclusive<usize>,
}

impl<'a> Iterator for Payloads<'a> {
    type Item = &'a [u8];

    #[inline]
    fn next(&mut self) -> Option<&'a [u8]> {
        self.capture.payload(self.places.next()?).ok()
    }

    #[inline]
    fn size_hint(&self) -> (usize, Option<usize>) {
        self.places.size_hint()
    }
}

impl ExactSizeIterator for Payloads<'_> {}

impl FusedIterator for Payloads<'_> {}

/// The outcome, if it is not that a block is bad. It is not 34 either: a capture has as many bytes as it has to have.
#[inline]
fn above(outcome: u64) -> Result<u64, BadBlock> {
    match outcome as u8 {
        0 => Ok(outcome),
        _ => Err(bad(outcome)),
    }
}

/// The place that stands above the answer, if that is 0.
#[inline]
fn place(outcome: u64) -> Result<usize, NotAppended> {
    match outcome as u8 {
        0 => Ok((outcome >> 8) as usize),
        31 => Err(NotAppended::Payload),
        32 => Err(NotAppended::Full),
        _ => Err(NotAppended::Bad(bad(outcome))),
    }
}

/// The bad block whose place stands above the answer.
#[inline]
fn bad(outcome: u64) -> BadBlock {
    BadBlock { place: (outcome >> 8) as usize }
}
