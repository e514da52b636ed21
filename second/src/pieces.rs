//! The walk over a closed line of any length that is read in pieces, with one buffer.

use std::io::{self, ErrorKind, Read};

use crate::exchange::{Exchange, Stock};
use crate::outline::ESC;
use crate::reading::{Answer, NoFrame};

/// The size of the one buffer.
const BUFFER: usize = 64 * 1024;

/// Reads a line of the stock exchange to its end and hands on each move: its place, its answer and the bytes that it takes.
/// Bytes next to each other that are no 27 come as one move.
pub fn each_move<R, F>(input: R, hand_on: F) -> io::Result<()>
where
    R: Read,
    F: FnMut(u64, &Answer, &[u8]) -> io::Result<()>,
{
    each_move_of::<Stock, R, F>(input, hand_on)
}

/// The same for a line of any exchange: a frame of each begins with 27.
pub fn each_move_of<E, R, F>(mut input: R, mut hand_on: F) -> io::Result<()>
where
    E: Exchange,
    R: Read,
    F: FnMut(u64, &Answer<E::Message>, &[u8]) -> io::Result<()>,
{
    let mut buffer = vec![0; BUFFER];
    let (mut start, mut end, mut ended) = (0, 0, false);
    let mut at: u64 = 0;
    loop {
        // A reading never looks further than the greatest length, so so many bytes decide it.
        if !ended && end - start < E::GREATEST_LENGTH {
            buffer.copy_within(start..end, 0);
            end -= start;
            start = 0;
            while !ended && end < E::GREATEST_LENGTH {
                match input.read(&mut buffer[end..]) {
                    Ok(0) => ended = true,
                    Ok(bytes) => end += bytes,
                    Err(error) if error.kind() == ErrorKind::Interrupted => {}
                    Err(error) => return Err(error),
                }
            }
        }
        let rest = &buffer[start..end];
        if rest.is_empty() {
            return Ok(());
        }
        let answer = E::read(rest);
        let bytes = match answer {
            Answer::Accepted { length, .. } | Answer::Refused { length, .. } => length,
            // All bytes up to the next 27 have the same answer.
            Answer::NoFrame { why: NoFrame::NotAStart, .. } => {
                rest.iter().position(|&byte| byte == ESC).unwrap_or(rest.len())
            }
            Answer::NoFrame { .. } => 1,
        };
        hand_on(at, &answer, &rest[..bytes])?;
        start += bytes;
        at += bytes as u64;
    }
}
