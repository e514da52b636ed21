//! Bad digits put on purpose into good frames, at every half of each format that holds one. The check byte is made right again, so
//! that the half which was made bad is the place that both have to tell.

use std::fmt;

use second::random::Random;
use second::reading::read_at;
use trivsome::raw;

use crate::reading::{Accepted, Readings};
use crate::same::{above, differ, hex, moved, outcome, packed, told};

/// The formats, each with the length of a frame that has all its packed digits.
const FORMATS: [(u8, usize); 4] = [(5, 14), (6, 131), (12, 374), (19, 26)];

/// The values that are no digit, and those that a price may not begin with.
const NO_DIGIT: [u8; 6] = [10, 11, 12, 13, 14, 15];
const NO_ZERO: [u8; 9] = [1, 2, 3, 4, 5, 6, 7, 8, 9];

/// At most so many bytes stand before a frame with a bad half.
const BEFORE: usize = 3;

/// A half of a frame, counted from its first byte, and the values with which it is bad.
#[derive(Clone, Copy)]
struct Spot {
    half: usize,
    values: &'static [u8],
}

/// What occurred.
pub struct BadHalves {
    /// The spots of each format, in their order, and how often each was told.
    told: [Vec<(Spot, u64)>; FORMATS.len()],
    /// Frames with one bad half, and those with further ones behind it.
    frames: [u64; 2],
    readings: Readings,
}

impl BadHalves {
    pub fn new() -> BadHalves {
        let told = FORMATS.map(|(format, longest)| spots(format, longest).into_iter().map(|spot| (spot, 0)).collect());
        BadHalves { told, frames: [0; 2], readings: Readings::default() }
    }

    /// Compares the readings and the moves of each accepted frame of a line with a half made bad, the one of its format that was
    /// told least.
    pub fn line(&mut self, line: &[u8], accepted: &[Accepted], random: &mut Random) -> Result<(), String> {
        for Accepted { place, length, message } in accepted {
            let frame = &line[*place..place + length];
            self.frame(frame, message.format(), random)
                .map_err(|what| format!("bad halves in {}: {what}", hex(frame)))?;
        }
        Ok(())
    }

    fn frame(&mut self, frame: &[u8], format: u8, random: &mut Random) -> Result<(), String> {
        let spots = FORMATS.iter().position(|known| known.0 == format).map(|known| &mut self.told[known]);
        let spots = spots.ok_or_else(|| format!("format {format}"))?;
        // of frames of one format that differ in length the longer has the spots of the shorter and more
        let count = spots.partition_point(|(spot, _)| spot.half < 2 * (frame.len() - 3));
        let least = (0..count).min_by_key(|&at| spots[at].1).ok_or("there is no digit")?;
        let (spot, times) = &mut spots[least];
        *times += 1;
        let Spot { half, values } = *spot;
        let mut bad = frame.to_vec();
        put(&mut bad, half, random.pick(values));
        let (alone, mut others) = (random.one_in(2), 0);
        for (other, _) in spots[least..count].iter().filter(|(other, _)| !alone && other.half > half) {
            if random.one_in(8) {
                put(&mut bad, other.half, random.pick(other.values));
                others += 1;
            }
        }
        self.frames[usize::from(others > 0)] += 1;
        self.compare(&bad, half, random.within(0..=BEFORE))
            .map_err(|what| format!("half {half}: {what}\n{}", hex(&bad)))
    }

    /// Both tell this half of a frame, by all readings and moves, wherever the frame stands.
    fn compare(&mut self, frame: &[u8], half: usize, before: usize) -> Result<(), String> {
        let line = [&[b'.'; BEFORE][..before], frame].concat();
        let (number, length) = match half {
            0..=5 => (3, 0),
            6..=19 => (6, frame.len()),
            _ => (11, frame.len()),
        };
        let answer = read_at(&line, before);
        let (second, expected) = (outcome(&answer), packed(number, 0, length, above(Some(half))));
        if second != expected {
            return Err(format!("the second program tells {}, and not {}", told(second), told(expected)));
        }
        self.readings.line(&line)?;
        for closed in [false, true] {
            let (proved, second) = (raw::move_at(&line, before, closed), moved(&answer, length.max(1)));
            if proved != second {
                return Err(differ("the move's outcome", &told(proved), &told(second)));
            }
        }
        Ok(())
    }

    /// What did not occur.
    pub fn missed(&self) -> Option<String> {
        let mut formats = FORMATS.iter().zip(&self.told);
        let spot = formats.find_map(|((format, _), spots)| Some((format, spots.iter().find(|spot| spot.1 == 0)?)));
        let half =
            spot.map(|(format, (Spot { half, values }, _))| format!("half {half} of format {format} as {values:?}"));
        half.or_else(|| self.frames.contains(&0).then(|| "one bad half alone, or one before others".into()))
    }
}

impl fmt::Display for BadHalves {
    fn fmt(&self, f: &mut fmt::Formatter) -> fmt::Result {
        let [alone, further] = self.frames;
        write!(f, "{alone} frames with one, {further} with others behind it; told at")?;
        for ((format, _), spots) in FORMATS.iter().zip(&self.told) {
            let told = spots.iter().filter(|spot| spot.1 > 0).count();
            write!(f, " {told} of {} in format {format}", spots.len())?;
        }
        Ok(())
    }
}

/// The halves of a frame of a format that hold digits: of the length, of the header and of the body's fields. Those that prices
/// begin with are there twice, by the two kinds of values.
fn spots(format: u8, length: usize) -> Vec<Spot> {
    let mut spots = Vec::new();
    for byte in (1..length - 3).filter(|&byte| byte < 10 || is_packed(format, byte)) {
        spots.push(Spot { half: 2 * byte, values: &NO_DIGIT });
        if begins_price(format, byte) {
            spots.push(Spot { half: 2 * byte, values: &NO_ZERO });
        }
        spots.push(Spot { half: 2 * byte + 1, values: &NO_DIGIT });
    }
    spots
}

/// Whether a byte of a frame's body, counted from the frame's first, has packed digits.
fn is_packed(format: u8, byte: usize) -> bool {
    match format {
        5 => byte == 10,
        6 => (16..22).contains(&byte) || byte >= 25,
        12 => byte == 10 || (byte - 11) % 36 >= 6,
        _ => (16..22).contains(&byte),
    }
}

/// Whether a price begins with this byte.
fn begins_price(format: u8, byte: usize) -> bool {
    match format {
        6 => (29..128).step_by(9).any(|price| price == byte),
        12 => byte >= 11 && [6, 11, 16, 21].contains(&((byte - 11) % 36)),
        _ => false,
    }
}

/// Puts a half into a frame, and the check byte that goes with it.
pub fn put(frame: &mut [u8], half: usize, value: u8) {
    let (before, check) = (frame[half / 2], frame.len() - 3);
    let byte = match half % 2 {
        0 => before & 0x0F | value << 4,
        _ => before & 0xF0 | value,
    };
    frame[half / 2] = byte;
    frame[check] ^= before ^ byte;
}
