//! Where a bad digit is, in halves from the frame's first byte. Nothing here is run while all digits are good.

use crate::places::{first_bad, Field};
use crate::reading::{NoFrame, Refusal};

/// The place that goes with an answer without a frame: that of a bad digit in the body's length.
pub fn of_no_frame(why: NoFrame, bytes: &[u8]) -> Option<usize> {
    match why {
        NoFrame::Length => in_length(bytes),
        NoFrame::NotAStart | NoFrame::TooFewBytes | NoFrame::End | NoFrame::Check => None,
    }
}

/// The place that goes with the refusal of a frame.
pub fn of_refusal(why: Refusal, frame: &[u8]) -> Option<usize> {
    match why {
        Refusal::HeaderDigit => in_header(frame),
        Refusal::Digit => in_body(frame),
        _ => None,
    }
}

#[cold]
fn in_length(bytes: &[u8]) -> Option<usize> {
    Field::new(12, 4).bad(bytes)
}

/// Time, number and version.
#[cold]
fn in_header(frame: &[u8]) -> Option<usize> {
    first_bad(frame, [Field::new(3, 8), Field::new(7, 8), Field::new(11, 2)])
}

/// Time and value, which stand behind a contract of 3 bytes in a frame of 29 and of 8 in one of 34.
#[cold]
fn in_body(frame: &[u8]) -> Option<usize> {
    let time = if frame.len() == 29 { 17 } else { 22 };
    first_bad(frame, [Field::new(time, 8), Field::new(time + 4, 8)])
}
