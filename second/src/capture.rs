//! The capture of a line: 65,536 lent bytes, in which 128 blocks follow each other, made so that a power loss harms none that
//! was finished before.
//!
//! A block has its number from 1 (4 bytes), how many payload bytes are used (2), 504 payload bytes with zeros behind the used
//! ones, and two check bytes; numbers are stored high byte first. While its number is 0 a block is unfinished, whatever else
//! stands there. The number's last byte is stored after all others, and that store finishes the block.
//!
//! The bytes are lent, so every call but clearing looks at the whole of them first: a block with a number that no append leaves
//! there answers 33.

use std::fmt;
use std::sync::atomic::{compiler_fence, Ordering};

/// How many bytes a block has.
pub const BLOCK: usize = 512;

/// How many blocks a capture has.
pub const PLACES: usize = 128;

/// How many bytes a capture has.
pub const BYTES: usize = 65_536;

/// The most payload bytes of a block.
pub const MOST: usize = 504;

/// Where in a block the number's last byte is, how many bytes are used, the payload and the check bytes.
const LAST: usize = 3;
const USED: usize = 4;
const PAYLOAD: usize = 6;
const CHECK: usize = 510;

#[derive(Clone, Copy, Debug, PartialEq, Eq)]
pub enum Refusal {
    /// 34: there are not 65,536 bytes.
    Memory,
    /// 31: the payload is empty or has more than 504 bytes.
    Payload,
    /// 33: the block at this place, from 1, is the first with a number that no append leaves there.
    Bad(usize),
    /// 32: all blocks are finished.
    Full,
}

impl Refusal {
    /// The number in the rules.
    pub fn number(self) -> u8 {
        match self {
            Refusal::Memory => 34,
            Refusal::Payload => 31,
            Refusal::Bad(_) => 33,
            Refusal::Full => 32,
        }
    }

    /// The place of the bad block.
    pub fn place(self) -> Option<usize> {
        match self {
            Refusal::Bad(place) => Some(place),
            Refusal::Memory | Refusal::Payload | Refusal::Full => None,
        }
    }
}

impl fmt::Display for Refusal {
    fn fmt(&self, f: &mut fmt::Formatter) -> fmt::Result {
        match self {
            Refusal::Memory => f.write_str("the capture is not 65,536 bytes long"),
            Refusal::Payload => f.write_str("the payload is empty or has more than 504 bytes"),
            Refusal::Bad(place) => write!(f, "block {place} is bad"),
            Refusal::Full => f.write_str("all 128 blocks are used"),
        }
    }
}

/// Makes the capture fresh, whatever it holds.
pub fn clear(memory: &mut [u8]) -> Result<(), Refusal> {
    check_length(memory)?;
    memory.fill(0);
    Ok(())
}

/// Stores a payload in the first unfinished block, and gives its place.
pub fn append(memory: &mut [u8], payload: &[u8]) -> Result<usize, Refusal> {
    let (place, block) = next(memory, payload)?;
    let room = &mut memory[start(place)..][..BLOCK];
    room[..LAST].copy_from_slice(&block[..LAST]);
    room[LAST + 1..].copy_from_slice(&block[LAST + 1..]);
    // The compiler must not join the last store with those before it.
    compiler_fence(Ordering::SeqCst);
    room[LAST] = block[LAST];
    Ok(place)
}

/// What appending a payload stores, in its order: each byte with its place in the memory, from 0.
pub fn stores(memory: &[u8], payload: &[u8]) -> Result<Vec<(usize, u8)>, Refusal> {
    let (place, block) = next(memory, payload)?;
    let order = (0..LAST).chain(LAST + 1..BLOCK).chain([LAST]);
    Ok(order.map(|at| (start(place) + at, block[at])).collect())
}

/// How many blocks are finished.
pub fn finished(memory: &[u8]) -> Result<usize, Refusal> {
    check_length(memory)?;
    let mut finished = 0;
    for (place, block) in (1..).zip(memory.chunks_exact(BLOCK)) {
        let number = u32::from_be_bytes([block[0], block[1], block[2], block[LAST]]);
        if number == 0 {
            continue;
        }
        if number != place as u32 || finished != place - 1 || !is_sound(block) {
            return Err(Refusal::Bad(place));
        }
        finished = place;
    }
    Ok(finished)
}

/// The payload at a place, from 1; empty if the block is unfinished or there is none.
pub fn payload(memory: &[u8], place: usize) -> Result<&[u8], Refusal> {
    if !(1..=finished(memory)?).contains(&place) {
        return Ok(&[]);
    }
    let block = &memory[start(place)..][..BLOCK];
    Ok(&block[PAYLOAD..][..used(block)])
}

/// Fletcher-16: the sum of the bytes, then the sum of these sums, each from 0 to 254.
pub fn fletcher(bytes: &[u8]) -> [u8; 2] {
    let (mut first, mut second) = (0, 0);
    // over as many bytes as a block has, the sums are far below 2^32
    for part in bytes.chunks(BLOCK) {
        for &byte in part {
            first += u32::from(byte);
            second += first;
        }
        first %= 255;
        second %= 255;
    }
    [first as u8, second as u8]
}

/// The place that the next append takes, and the block that it leaves there.
fn next(memory: &[u8], payload: &[u8]) -> Result<(usize, [u8; BLOCK]), Refusal> {
    check_length(memory)?;
    if payload.is_empty() || payload.len() > MOST {
        return Err(Refusal::Payload);
    }
    let place = finished(memory)? + 1;
    if place > PLACES {
        return Err(Refusal::Full);
    }
    Ok((place, block_of(place, payload)))
}

fn block_of(place: usize, payload: &[u8]) -> [u8; BLOCK] {
    let mut block = [0; BLOCK];
    block[..USED].copy_from_slice(&(place as u32).to_be_bytes());
    block[USED..PAYLOAD].copy_from_slice(&(payload.len() as u16).to_be_bytes());
    block[PAYLOAD..][..payload.len()].copy_from_slice(payload);
    let check = fletcher(&block[..CHECK]);
    block[CHECK..].copy_from_slice(&check);
    block
}

/// Whether all but the number of a block is as an append leaves it.
fn is_sound(block: &[u8]) -> bool {
    let used = used(block);
    (1..=MOST).contains(&used)
        && block[PAYLOAD + used..CHECK].iter().all(|&byte| byte == 0)
        && block[CHECK..] == fletcher(&block[..CHECK])
}

/// How many payload bytes a block says it has.
fn used(block: &[u8]) -> usize {
    usize::from(u16::from_be_bytes([block[USED], block[USED + 1]]))
}

/// Where a place's block starts in the memory.
fn start(place: usize) -> usize {
    (place - 1) * BLOCK
}

fn check_length(memory: &[u8]) -> Result<(), Refusal> {
    if memory.len() == BYTES {
        Ok(())
    } else {
        Err(Refusal::Memory)
    }
}
