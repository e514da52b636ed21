//! The common frame: 27, length, business, format, version, number, body, check byte, 0D 0A.

use crate::digits;
use crate::reading::{NoFrame, Refusal};

pub const ESC: u8 = 27;
pub const END: [u8; 2] = [0x0D, 0x0A];
pub const BUSINESS: u8 = 1;
pub const LEAST_LENGTH: usize = 14;
pub const GREATEST_LENGTH: usize = 1024;
pub const GREATEST_NUMBER: u32 = 99_999_999;

/// Bytes before the body and after it.
pub const HEAD: usize = 10;
pub const TAIL: usize = 3;

/// The length of the frame that the bytes begin with, if its outline is whole.
pub fn outline(bytes: &[u8]) -> Result<usize, NoFrame> {
    begins(bytes, 3)?;
    let length = match digits::number(&bytes[1..3]) {
        Some(length) => length as usize,
        None => return Err(NoFrame::Length),
    };
    if !(LEAST_LENGTH..=GREATEST_LENGTH).contains(&length) {
        return Err(NoFrame::Length);
    }
    ends(bytes, length)?;
    Ok(length)
}

/// Whether a frame begins here, with as many bytes as its length is told in.
#[inline]
pub(crate) fn begins(bytes: &[u8], told: usize) -> Result<(), NoFrame> {
    match bytes.first() {
        None => Err(NoFrame::TooFewBytes),
        Some(&first) if first != ESC => Err(NoFrame::NotAStart),
        Some(_) if bytes.len() < told => Err(NoFrame::TooFewBytes),
        Some(_) => Ok(()),
    }
}

/// Whether so many bytes are there and end as a frame does.
#[inline]
pub(crate) fn ends(bytes: &[u8], length: usize) -> Result<(), NoFrame> {
    let frame = bytes.get(..length).ok_or(NoFrame::TooFewBytes)?;
    if frame[length - 2..] != END {
        return Err(NoFrame::End);
    }
    if frame[length - 3] != check_byte(frame) {
        return Err(NoFrame::Check);
    }
    Ok(())
}

/// The exclusive-or of the second byte up to the last byte of the body.
pub fn check_byte(frame: &[u8]) -> u8 {
    frame[1..frame.len() - TAIL].iter().fold(0, |sum, byte| sum ^ byte)
}

/// What a frame says before its body.
#[derive(Clone, Copy, Debug, PartialEq, Eq)]
pub struct Header {
    pub business: u8,
    pub format: u8,
    pub version: u8,
    pub number: u32,
}

impl Header {
    /// The header of a frame whose outline is whole.
    pub fn read(frame: &[u8]) -> Result<Header, Refusal> {
        let field = |from: usize, to: usize| digits::number(&frame[from..to]).ok_or(Refusal::HeaderDigit);
        Ok(Header {
            business: field(3, 4)? as u8,
            format: field(4, 5)? as u8,
            version: field(5, 6)? as u8,
            number: field(6, 10)? as u32,
        })
    }
}

/// Puts the outline around a body that is in its place already. The slice is exactly the frame.
pub fn close(frame: &mut [u8], format: u8, version: u8, number: u32) {
    let length = frame.len();
    frame[0] = ESC;
    digits::pack(length as u64, &mut frame[1..3]);
    digits::pack(u64::from(BUSINESS), &mut frame[3..4]);
    digits::pack(u64::from(format), &mut frame[4..5]);
    digits::pack(u64::from(version), &mut frame[5..6]);
    digits::pack(u64::from(number), &mut frame[6..10]);
    frame[length - 3] = check_byte(frame);
    frame[length - 2..].copy_from_slice(&END);
}
