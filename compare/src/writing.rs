//! Writings: each accepted message written back, and messages with faults in every kind of field.

use std::collections::BTreeMap;
use std::fmt;

use second::faults::{names, spoil};
use second::five::Notice;
use second::random::Random;
use second::{Message, NotWritten};
use trivsome::raw;

use crate::reading::Accepted;
use crate::same::{self, differ, hex};

/// What buffers hold before a writing, and the most room that they have.
const BEHIND: u8 = 0xEE;
const ROOM: usize = 400;

/// The longest text that is tried.
const LONG: usize = 256;

/// How many messages with faults are made of each accepted one.
const SPOILED: usize = 3;

/// What occurred.
#[derive(Default)]
pub struct Writings {
    written: u64,
    /// 14 with room for any frame, and with less than the frame would take.
    wrong: [u64; 2],
    short: u64,
    /// How often each kind of fault, alone in a message, answered 14.
    faults: BTreeMap<&'static str, u64>,
    /// Numbers that are no event of a halt.
    no_events: u64,
}

impl Writings {
    /// Compares the writing of a line's accepted messages, and of messages with faults made of them.
    pub fn line(&mut self, line: &[u8], accepted: &[Accepted], random: &mut Random) -> Result<(), String> {
        for Accepted { place, length, message } in accepted {
            let frame = &line[*place..place + length];
            let within = |what: String| format!("the message of {}: {what}", hex(frame));
            self.back(frame, message, random).map_err(within)?;
            self.spoiled(*length, message, random).map_err(within)?;
            if let Message::Nineteen(halt) = message {
                self.no_event(&same::halt(halt), random).map_err(within)?;
            }
        }
        Ok(())
    }

    /// The frame's own bytes where there is room, and 15 where there is less.
    fn back(&mut self, frame: &[u8], message: &Message, random: &mut Random) -> Result<(), String> {
        let room = frame.len() + random.below(10) as usize;
        let (answer, buffer) = both(message, room)?;
        if answer != Ok(frame.len()) || !buffer.starts_with(frame) {
            return Err(format!("written back it is {answer:?}, {}", hex(&buffer[..room])));
        }
        self.written += 1;
        for room in [frame.len() - 1, random.below(frame.len() as u64) as usize] {
            let (answer, _) = both(message, room)?;
            if answer != Err(15) {
                return Err(format!("with room for {room} bytes it answers {answer:?}"));
            }
            self.short += 1;
        }
        Ok(())
    }

    /// 14 for a fault or two, whatever the room.
    fn spoiled(&mut self, length: usize, message: &Message, random: &mut Random) -> Result<(), String> {
        for _ in 0..SPOILED {
            let mut wrong = *message;
            let name = spoil(&mut wrong, random);
            let alone = random.below(4) > 0;
            if !alone {
                spoil(&mut wrong, random);
            }
            for (kind, room) in [ROOM, random.below(length as u64) as usize].into_iter().enumerate() {
                let (answer, _) = both(&wrong, room).map_err(|what| format!("{name}: {what}\nof {wrong:?}"))?;
                if answer != Err(14) {
                    return Err(format!("{name}: with room for {room} bytes it answers {answer:?}\nof {wrong:?}"));
                }
                self.wrong[kind] += 1;
            }
            if alone {
                *self.faults.entry(name).or_default() += 1;
            }
        }
        Ok(())
    }

    /// Four numbers that tell no event, of which the second program's halts have none.
    fn no_event(&mut self, halt: &trivsome::Halt, random: &mut Random) -> Result<(), String> {
        let (any, state) = (1 + random.amount(4_000_000_000) as u32, u32::from(random.pick(b"CI")));
        let event = match random.below(4) {
            0 => [1 + any, 100_500, 999_999, state],
            1 => [1, 100_500, 999_999, random.pick(&[0, 66, 68, 72, 74, 67 + 256, 73 + 65_536, u32::MAX])],
            2 => [0, 123, any, state],
            _ => [0, 123, 0, random.pick(&[0, 66, 68, 72, 74, 67 + 256, 73 + 65_536, u32::MAX])],
        };
        let code = if event[0] == 0 { *b"000123" } else { halt.code.0 };
        for room in [ROOM, random.below(26) as usize] {
            let mut buffer = [BEHIND; ROOM];
            let proved = raw::write_halt(halt.seq, &code, &event, &mut buffer[..room]);
            if proved != 14 || buffer != [BEHIND; ROOM] {
                return Err(format!(
                    "the numbers {event:?} with room for {room} bytes answer {proved}, {}",
                    hex(&buffer)
                ));
            }
            self.no_events += 1;
        }
        Ok(())
    }

    /// What did not occur.
    pub fn missed(&self) -> Option<String> {
        let fault = names().into_iter().find(|name| !self.faults.contains_key(name));
        let counts = [self.written, self.wrong[0], self.wrong[1], self.short, self.no_events];
        fault.map(str::to_string).or_else(|| counts.contains(&0).then(|| "one of the writings".into()))
    }
}

impl fmt::Display for Writings {
    fn fmt(&self, f: &mut fmt::Formatter) -> fmt::Result {
        let [room, none] = self.wrong;
        write!(f, "0:{} 14:{} 15:{}; ", self.written, room + none + self.no_events, self.short)?;
        write!(
            f,
            "{} kinds of fault, 14 where it is 15 too:{none}, numbers of no event:{}",
            self.faults.len(),
            self.no_events
        )
    }
}

type Written = (Result<usize, u8>, [u8; ROOM]);

/// Both write a message into so much room of a buffer, and leave the same.
fn both(message: &Message, room: usize) -> Result<Written, String> {
    let (mut ours, mut theirs) = ([BEHIND; ROOM], [BEHIND; ROOM]);
    let second = second::write(message, &mut theirs[..room]).map_err(NotWritten::number);
    let proved = proved(message, &mut ours[..room]).map_err(trivsome::NotWritten::number);
    if proved != second {
        return Err(differ(&format!("writing with room for {room} bytes"), &proved, &second));
    }
    let mut again = [BEHIND; ROOM];
    let (outcome, expected) = (raw_outcome(message, &mut again[..room]), packed_outcome(second));
    if outcome != expected || again != ours {
        return Err(differ(&format!("the outcome with room for {room} bytes"), &outcome, &expected));
    }
    if ours != theirs {
        let what = format!("the buffer after {second:?} with room for {room} bytes");
        return Err(format!("{what} differs\n  proved: {}\n  second: {}", hex(&ours), hex(&theirs)));
    }
    let changed = second.unwrap_or(0);
    if ours[changed..].iter().any(|&byte| byte != BEHIND) {
        return Err(format!("after {second:?} with room for {room} bytes others are changed: {}", hex(&ours)));
    }
    Ok((second, ours))
}

/// A writing's outcome as one number.
fn packed_outcome(written: Result<usize, u8>) -> u64 {
    match written {
        Ok(length) => same::packed(0, 0, length, 0),
        Err(number) => same::packed(number, 0, 0, 0),
    }
}

/// The library's writing of the second program's message, by its names.
fn proved(message: &Message, buffer: &mut [u8]) -> Result<usize, trivsome::NotWritten> {
    match message {
        Message::Five(notice) => match same::notice(notice) {
            Some(notice) => trivsome::write_notice(&notice, buffer),
            None => trivsome::write_text(notice.number, notice.category, text(notice, &mut [0; LONG]), buffer),
        },
        Message::Six(quote) => trivsome::write_quote(&same::quote(quote), buffer),
        Message::Twelve(prices) => trivsome::write_prices(&same::prices(prices), buffer),
        Message::Nineteen(halt) => trivsome::write_halt(&same::halt(halt), buffer),
    }
}

/// The same by the call as it is.
fn raw_outcome(message: &Message, buffer: &mut [u8]) -> u64 {
    match message {
        Message::Five(notice) => {
            raw::write_notice(notice.number, notice.category, text(notice, &mut [0; LONG]), buffer)
        }
        Message::Six(quote) => raw::write_quote(&same::quote(quote), buffer),
        Message::Twelve(prices) => raw::write_prices(&same::prices(prices), buffer),
        Message::Nineteen(halt) => raw::write_halt(halt.number, &halt.code, &same::event(halt), buffer),
    }
}

/// As many bytes of text as the notice says, more than it has room for too.
fn text<'a>(notice: &Notice, long: &'a mut [u8; LONG]) -> &'a [u8] {
    long[..60].copy_from_slice(&notice.text);
    &long[..notice.text_length.min(LONG)]
}
