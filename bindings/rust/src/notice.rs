//! Format five: notices.

use crate::outcome::{written, Frame, NotRead, NotWritten, Outcome};
use crate::raw;

/// A notice: its category and up to 60 bytes of text, which nobody judges.
#[derive(Clone, Copy, Debug, PartialEq, Eq, Hash)]
pub struct Notice {
    /// The frame's number.
    pub seq: u32,
    /// 0, 9, 90 or 99.
    pub category: u8,
    /// How many bytes of the text are used; the others are zero.
    length: u8,
    text: [u8; 60],
}

impl Default for Notice {
    /// The empty notice, all zeros.
    #[inline]
    fn default() -> Notice {
        Notice { seq: 0, category: 0, length: 0, text: [0; 60] }
    }
}

impl Notice {
    /// The format's number.
    pub const FORMAT: u8 = 5;

    /// A notice with this text, if it has 60 bytes at most.
    pub fn new(seq: u32, category: u8, text: &[u8]) -> Option<Notice> {
        let mut notice = Notice { seq, category, ..Notice::default() };
        notice.text.get_mut(..text.len())?.copy_from_slice(text);
        notice.length = text.len() as u8;
        Some(notice)
    }

    /// The text.
    #[inline]
    pub fn text(&self) -> &[u8] {
        &self.text[..usize::from(self.length).min(60)]
    }
}

/// Reads the notice at a place of a line.
#[inline]
pub fn read_notice(line: &[u8], at: usize) -> Result<(Frame, Notice), NotRead> {
    let mut notice = Notice::default();
    let frame = read_notice_into(line, at, &mut notice)?;
    Ok((frame, notice))
}

/// The same into a lent notice. A refusal and an accepted frame of another format leave it as it was.
#[inline]
pub fn read_notice_into(line: &[u8], at: usize, notice: &mut Notice) -> Result<Frame, NotRead> {
    let outcome = Outcome::of(raw::read_notice(line, at, &mut notice.category, &mut notice.text));
    let frame = outcome.frame_of(Notice::FORMAT)?;
    notice.seq = frame.seq;
    notice.length = (frame.length - 14) as u8;
    Ok(frame)
}

/// Writes a notice as a frame at the start of a buffer, and gives the frame's length.
#[inline]
pub fn write_notice(notice: &Notice, buffer: &mut [u8]) -> Result<usize, NotWritten> {
    write_text(notice.seq, notice.category, notice.text(), buffer)
}

/// The same of a text of any length; one of more than 60 bytes answers 14.
#[inline]
pub fn write_text(seq: u32, category: u8, text: &[u8], buffer: &mut [u8]) -> Result<usize, NotWritten> {
    written(raw::write_notice(seq, category, text, buffer))
}
