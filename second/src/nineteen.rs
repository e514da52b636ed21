//! Format nineteen, halts: a stock's or the whole market's halt, still open or with a resume, or a round's end.

use std::ops::RangeInclusive;

use crate::digits;
use crate::outline::GREATEST_NUMBER;
use crate::reading::Refusal;
use crate::times;
use crate::units::{code_at, is_code, Code, CODE_ZERO};

pub const FORMAT: u8 = 19;
pub const VERSION: u8 = 1;
pub const LENGTHS: RangeInclusive<usize> = 26..=26;

#[derive(Clone, Copy, Debug, PartialEq, Eq)]
pub enum Resume {
    /// 999999 in the frame.
    Open,
    /// HHMMSS.
    At(u32),
}

#[derive(Clone, Copy, Debug, PartialEq, Eq)]
pub enum Event {
    /// Both times are 999999; the code says how many records the round had.
    RoundEnd { records: u32 },
    /// Halted at HHMMSS.
    Halted { at: u32, resume: Resume },
}

#[derive(Clone, Copy, Debug, PartialEq, Eq)]
pub enum State {
    /// `C`, sent in the cycle.
    Cycle,
    /// `I`, sent at once.
    AtOnce,
}

#[derive(Clone, Copy, Debug, PartialEq, Eq)]
pub struct Halt {
    pub number: u32,
    pub code: Code,
    pub event: Event,
    pub state: State,
}

/// The number that a code of six digits says.
fn records(code: &Code) -> Option<u32> {
    code.iter().try_fold(0, |sum, byte| byte.is_ascii_digit().then(|| sum * 10 + u32::from(byte - b'0')))
}

impl Halt {
    pub fn read(number: u32, body: &[u8]) -> Result<Halt, Refusal> {
        let code = code_at(body);
        let halted = digits::number(&body[6..9]).ok_or(Refusal::Digit)? as u32;
        let resumed = digits::number(&body[9..12]).ok_or(Refusal::Digit)? as u32;
        let round_end = halted == times::SHORT_NINES && resumed == times::SHORT_NINES;
        if !round_end {
            let resume_keeps = resumed == times::SHORT_NINES || times::is_short(resumed);
            if !times::is_short(halted) || !resume_keeps {
                return Err(Refusal::Time);
            }
        }
        let state = match body[12] {
            b'C' => State::Cycle,
            b'I' => State::AtOnce,
            _ => return Err(Refusal::Field),
        };
        if !is_code(&code) {
            return Err(Refusal::Field);
        }
        let event = if round_end {
            Event::RoundEnd { records: records(&code).ok_or(Refusal::Field)? }
        } else if resumed == times::SHORT_NINES {
            Event::Halted { at: halted, resume: Resume::Open }
        } else {
            Event::Halted { at: halted, resume: Resume::At(resumed) }
        };
        Ok(Halt { number, code, event, state })
    }

    /// Whether the whole market is halted. A round's end with the code `000000` had no records, and is no such halt.
    pub fn is_whole_market(&self) -> bool {
        self.code == CODE_ZERO && matches!(self.event, Event::Halted { .. })
    }

    /// Whether every field keeps its rule and range.
    pub fn keeps_rules(&self) -> bool {
        self.number <= GREATEST_NUMBER
            && is_code(&self.code)
            && match self.event {
                Event::RoundEnd { records: said } => records(&self.code) == Some(said),
                Event::Halted { at, resume: Resume::Open } => times::is_short(at),
                Event::Halted { at, resume: Resume::At(resumed) } => times::is_short(at) && times::is_short(resumed),
            }
    }

    pub fn length(&self) -> usize {
        *LENGTHS.start()
    }

    /// Writes the body, for a message that keeps the rules.
    pub fn write(&self, body: &mut [u8]) {
        let (halted, resumed) = match self.event {
            Event::RoundEnd { .. } => (times::SHORT_NINES, times::SHORT_NINES),
            Event::Halted { at, resume: Resume::Open } => (at, times::SHORT_NINES),
            Event::Halted { at, resume: Resume::At(resumed) } => (at, resumed),
        };
        body[..6].copy_from_slice(&self.code);
        digits::pack(u64::from(halted), &mut body[6..9]);
        digits::pack(u64::from(resumed), &mut body[9..12]);
        body[12] = match self.state {
            State::Cycle => b'C',
            State::AtOnce => b'I',
        };
    }
}
