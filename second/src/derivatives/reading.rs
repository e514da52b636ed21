//! The reading: what the bytes from a place on are, by the numbers 0 to 13 of docs/RULES.md. 10 is never given here.

use crate::derivatives::message::is_market;
use crate::derivatives::outline::{outline, Header, HEAD};
use crate::derivatives::{places, Kind, Message};
use crate::outline::TAIL;
use crate::reading::{Answer, Refusal};

/// Reads the frame that the bytes begin with. Bytes behind it are not looked at.
pub fn read(bytes: &[u8]) -> Answer<Message> {
    let length = match outline(bytes) {
        Ok(length) => length,
        Err(why) => return Answer::NoFrame { why, place: places::of_no_frame(why, bytes) },
    };
    let frame = &bytes[..length];
    match read_frame(frame) {
        Ok(message) => Answer::Accepted { length, message },
        Err(why) => Answer::Refused { length, why, place: places::of_refusal(why, frame) },
    }
}

/// Reads from a place in a line; at or past the line's end there are no bytes.
pub fn read_at(line: &[u8], place: usize) -> Answer<Message> {
    read(line.get(place..).unwrap_or(&[]))
}

fn read_frame(frame: &[u8]) -> Result<Message, Refusal> {
    let header = Header::read(frame)?;
    let kind = Kind::of(header.kind).filter(|_| is_market(header.market)).ok_or(Refusal::Format)?;
    if header.version != kind.version() {
        return Err(Refusal::Version);
    }
    Message::read(&header, kind, &frame[HEAD..frame.len() - TAIL])
}
