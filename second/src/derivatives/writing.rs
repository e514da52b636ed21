//! The writing: a message's frame at the beginning of a lent buffer, or 14 or 15 and the buffer as it came.

use crate::derivatives::outline::{close, HEAD};
use crate::derivatives::Message;
use crate::outline::TAIL;
use crate::writing::NotWritten;

/// Writes the frame and gives its length. Bytes behind the frame keep what they held.
pub fn write(message: &Message, buffer: &mut [u8]) -> Result<usize, NotWritten> {
    if !message.keeps_rules() {
        return Err(NotWritten::Message);
    }
    let length = message.length();
    let frame = buffer.get_mut(..length).ok_or(NotWritten::Buffer)?;
    message.write(&mut frame[HEAD..length - TAIL]);
    close(frame, &message.header());
    Ok(length)
}
