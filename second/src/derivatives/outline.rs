//! The common frame: 27, transmission code, kind, time, number, version, length of the body, body, check byte, 0D 0A.

use crate::digits;
use crate::outline::{begins, check_byte, ends, END, ESC, GREATEST_LENGTH, TAIL};
use crate::reading::{NoFrame, Refusal};

/// Bytes before the body.
pub const HEAD: usize = 14;

/// The length of the frame that the bytes begin with, if its outline is whole. The body's own may be 0.
pub fn outline(bytes: &[u8]) -> Result<usize, NoFrame> {
    begins(bytes, HEAD)?;
    let body = digits::number(&bytes[12..14]).ok_or(NoFrame::Length)? as usize;
    let length = HEAD + body + TAIL;
    if length > GREATEST_LENGTH {
        return Err(NoFrame::Length);
    }
    ends(bytes, length)?;
    Ok(length)
}

/// What a frame says before its body.
#[derive(Clone, Copy, Debug, PartialEq, Eq)]
pub struct Header {
    /// The transmission code.
    pub market: u8,
    pub kind: u8,
    /// HHMMSScc.
    pub sent: u32,
    pub seq: u32,
    pub version: u8,
}

impl Header {
    /// The header of a frame whose outline is whole. Transmission code and kind are characters and no digits.
    pub fn read(frame: &[u8]) -> Result<Header, Refusal> {
        let field = |from: usize, to: usize| digits::number(&frame[from..to]).ok_or(Refusal::HeaderDigit);
        Ok(Header {
            market: frame[1],
            kind: frame[2],
            sent: field(3, 7)? as u32,
            seq: field(7, 11)? as u32,
            version: field(11, 12)? as u8,
        })
    }
}

/// Puts the outline around a body that is in its place already. The slice is exactly the frame.
pub fn close(frame: &mut [u8], header: &Header) {
    let length = frame.len();
    frame[0] = ESC;
    frame[1] = header.market;
    frame[2] = header.kind;
    digits::pack(u64::from(header.sent), &mut frame[3..7]);
    digits::pack(u64::from(header.seq), &mut frame[7..11]);
    digits::pack(u64::from(header.version), &mut frame[11..12]);
    digits::pack((length - HEAD - TAIL) as u64, &mut frame[12..14]);
    frame[length - 3] = check_byte(frame);
    frame[length - 2..].copy_from_slice(&END);
}
