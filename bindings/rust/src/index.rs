//! The derivatives exchange's index values, I060 and I064, in the edition of 2015.

use crate::outcome::{written, Answer, Frame, NotWritten, Outcome};
use crate::raw;
use crate::units::Thousandths;

/// An index value: what the underlying of a contract stood at, and when.
///
/// The order of the fields is that of the library's numbers, so that an index value is read straight into them.
#[derive(Clone, Copy, Debug, Default, PartialEq, Eq, Hash)]
#[repr(C)]
pub struct Index {
    /// The frame's number.
    pub seq: u32,
    /// When the frame was sent: HHMMSS and hundredths.
    pub sent: u32,
    /// The time of the value: HHMMSS and hundredths.
    pub time: u32,
    /// The value.
    pub value: Thousandths,
    /// `1` for futures, `4` for options.
    pub market: u8,
    /// `5` in I060, `8` in I064.
    pub kind: u8,
    /// How many bytes of the contract are used, 3 or 8; the others are zero.
    pub length: u8,
    /// Bit 0 in I060, bits 0 to 2 in I064; the others are reserved, and clear.
    pub status: u8,
    /// The contract as it stands in the frame, with its spaces; zeros behind its length.
    pub contract: [u8; 8],
}

impl Index {
    /// The number of I060, an index value alone.
    pub const I060: u8 = 60;

    /// The number of I064, a trial match and the state of an underlying.
    pub const I064: u8 = 64;

    /// The bytes of the contract that are used.
    #[inline]
    pub fn contract(&self) -> &[u8] {
        &self.contract[..usize::from(self.length).min(8)]
    }
}

/// Reads the frame at a place of a line of the derivatives exchange: the answer alone.
#[inline]
pub fn read_derivatives(line: &[u8], at: usize) -> Outcome {
    Outcome::of(raw::derivatives_read(line, at))
}

/// Reads the index value at a place of a line of the derivatives exchange. Each accepted frame is one.
#[inline]
pub fn read_index(line: &[u8], at: usize) -> Result<(Frame, Index), Answer> {
    let mut index = Index::default();
    let frame = read_index_into(line, at, &mut index)?;
    Ok((frame, index))
}

/// The same into a lent index value. A refusal leaves it as it was.
#[inline]
pub fn read_index_into(line: &[u8], at: usize, index: &mut Index) -> Result<Frame, Answer> {
    match Outcome::of(raw::read_index(line, at, index)).answer() {
        Answer::Accepted(frame) => {
            index.seq = frame.seq;
            Ok(frame)
        }
        refused => Err(refused),
    }
}

/// Writes an index value as a frame at the start of a buffer, and gives the frame's length.
#[inline]
pub fn write_index(index: &Index, buffer: &mut [u8]) -> Result<usize, NotWritten> {
    written(raw::write_index(index, buffer))
}
