//! A capture: payloads of 504 bytes and of one appended to a fresh one, the first of them and until it is full; and a full one looked
//! over whole, and read at any place.

use std::hint::black_box;

use second::capture::{self, BLOCK, BYTES, MOST, PLACES};
use second::random::Random;
use trivsome::raw;

use crate::timing::{both, Effort, Row};

const PART: &str = "capture";

/// How often in a row the same is done to a capture.
const TIMES: usize = 128;

/// A fresh capture, and 128 payloads that fill it.
struct Filling {
    memory: Vec<u8>,
    payloads: Vec<Vec<u8>>,
}

impl Filling {
    fn new(length: usize) -> Filling {
        let mut random = Random::new(15);
        let payloads = (0..PLACES).map(|_| (0..length).map(|_| random.byte()).collect()).collect();
        Filling { memory: vec![0; BYTES], payloads }
    }

    /// The full capture that both sides leave, after the same answers to each payload.
    fn agree(&self) -> Result<Vec<u8>, String> {
        let (mut own, mut other) = (self.memory.clone(), self.memory.clone());
        for payload in &self.payloads {
            let (ours, theirs) = (raw::capture_append(&mut own, payload), capture::append(&mut other, payload));
            if theirs.map(told) != Ok(ours) || own != other {
                return Err(format!("an append is answered {ours} against {theirs:?}, or leaves other bytes"));
            }
            let (ours, theirs) = (raw::capture_finished(&own), capture::finished(&own));
            if theirs.map(told) != Ok(ours) {
                return Err(format!("the finished blocks are {ours} against {theirs:?}"));
            }
        }
        for place in 0..=PLACES + 1 {
            let (ours, theirs) = (payload_at(&own, place), capture::payload(&own, place));
            if theirs != Ok(ours) {
                return Err(format!("at place {place} there is {ours:?} against {theirs:?}"));
            }
        }
        Ok(own)
    }
}

/// A figure as it stands above an answer of 0.
fn told(figure: usize) -> u64 {
    (figure as u64) << 8
}

/// The payload that the proved call tells, of a capture without a bad block.
fn payload_at(memory: &[u8], place: usize) -> &[u8] {
    let outcome = raw::capture_payload(memory, place);
    &memory[(outcome >> 32) as usize..][..usize::from((outcome >> 16) as u16)]
}

pub fn capture(effort: Effort) -> Result<Vec<Row>, String> {
    let (long, short) = (Filling::new(MOST), Filling::new(1));
    let within = |what: String| format!("capture: {what}");
    let (full, full_of_short) = (long.agree().map_err(within)?, short.agree().map_err(within)?);
    let row = |name: &str, bytes: usize, (proved, second)| Row {
        part: PART,
        name: name.into(),
        bytes: bytes as f64,
        proved,
        second,
    };
    Ok(vec![
        row("504 bytes, until it is full", MOST, until_full(effort, &long)?),
        row("504 bytes, the first", MOST, first(effort, &long)?),
        row("1 byte, until it is full", 1, until_full(effort, &short)?),
        row("1 byte, the first", 1, first(effort, &short)?),
        row("looked over, full of 504 bytes", BYTES, looked_over(effort, &full)?),
        row("looked over, full of 1 byte", BYTES, looked_over(effort, &full_of_short)?),
        row("looked over, fresh", 0, looked_over(effort, &long.memory)?),
        row("read at a place, full", 0, read(effort, &full)?),
    ])
}

/// A capture cleared and filled: an append on average.
fn until_full(effort: Effort, filling: &Filling) -> Result<(f64, f64), String> {
    let (mut own, mut other) = (filling.memory.clone(), filling.memory.clone());
    let proved = || {
        let mut sum = raw::capture_clear(black_box(&mut own));
        for payload in black_box(&filling.payloads) {
            sum += raw::capture_append(&mut own, payload);
        }
        sum
    };
    let second = || {
        let mut sum = u64::from(capture::clear(black_box(&mut other)).is_err());
        for payload in black_box(&filling.payloads) {
            sum += capture::append(&mut other, payload).map_or(1, told);
        }
        sum
    };
    both(effort, PLACES, proved, second)
}

/// The append to a fresh capture, whose first block is made zeros again behind each.
fn first(effort: Effort, filling: &Filling) -> Result<(f64, f64), String> {
    let (mut own, mut other) = (filling.memory.clone(), filling.memory.clone());
    let proved = || {
        let mut sum = 0;
        for payload in black_box(&filling.payloads) {
            sum += raw::capture_append(black_box(&mut own), payload);
            own[..BLOCK].fill(0);
        }
        sum
    };
    let second = || {
        let mut sum = 0;
        for payload in black_box(&filling.payloads) {
            sum += capture::append(black_box(&mut other), payload).map_or(1, told);
            other[..BLOCK].fill(0);
        }
        sum
    };
    both(effort, filling.payloads.len(), proved, second)
}

/// How many blocks are finished.
fn looked_over(effort: Effort, memory: &[u8]) -> Result<(f64, f64), String> {
    let proved = || (0..TIMES).map(|_| raw::capture_finished(black_box(memory))).sum();
    let second = || (0..TIMES).map(|_| capture::finished(black_box(memory)).map_or(1, told)).sum();
    both(effort, TIMES, proved, second)
}

/// A payload, and its first and last byte.
fn read(effort: Effort, memory: &[u8]) -> Result<(f64, f64), String> {
    let mut random = Random::new(16);
    let places: Vec<usize> = (0..TIMES).map(|_| random.within(1..=PLACES)).collect();
    let ends = |payload: &[u8]| payload.first().zip(payload.last()).map_or(0, |(a, z)| u64::from(*a) + u64::from(*z));
    let proved = || black_box(&places).iter().map(|&place| ends(payload_at(black_box(memory), place))).sum();
    let second = || {
        black_box(&places).iter().map(|&place| ends(capture::payload(black_box(memory), place).unwrap_or(&[]))).sum()
    };
    both(effort, TIMES, proved, second)
}
