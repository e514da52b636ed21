//! Format nineteen: halts.

use crate::outcome::{written, Frame, NotRead, NotWritten, Outcome};
use crate::raw;
use crate::units::{Code, SHORT_NINES};

/// When a halt ends.
#[derive(Clone, Copy, Debug, PartialEq, Eq, Hash)]
pub enum Resume {
    /// Not known yet: 999999 in the frame.
    Open,
    /// HHMMSS.
    At(u32),
}

/// What a frame of format nineteen tells of.
#[derive(Clone, Copy, Debug, PartialEq, Eq, Hash)]
pub enum Event {
    /// The end of a round of so many records, which the code says too.
    RoundEnd(u32),
    /// A halt at HHMMSS, and its end.
    Halted(u32, Resume),
}

/// When a halt is sent.
#[derive(Clone, Copy, Debug, PartialEq, Eq, Hash)]
pub enum Sending {
    /// `C`, sent in the cycle.
    Cycle,
    /// `I`, sent at once.
    Instant,
}

/// A stock's halt, the whole market's (code `000000`), or a round's end.
#[derive(Clone, Copy, Debug, PartialEq, Eq, Hash)]
pub struct Halt {
    /// The frame's number.
    pub seq: u32,
    /// The stock; of a round's end, its records as six digits.
    pub code: Code,
    /// A halt, or a round's end.
    pub event: Event,
    /// In the cycle, or at once.
    pub state: Sending,
}

impl Default for Halt {
    /// The empty halt: a round's end of 0 records in the cycle, with zeros for a code.
    #[inline]
    fn default() -> Halt {
        Halt { seq: 0, code: Code::default(), event: Event::RoundEnd(0), state: Sending::Cycle }
    }
}

impl Halt {
    /// The format's number.
    pub const FORMAT: u8 = 19;

    /// Whether the whole market is halted. A round's end with the code `000000` had no records, and is no such halt.
    #[inline]
    pub fn is_whole_market(&self) -> bool {
        self.code == Code(*b"000000") && matches!(self.event, Event::Halted(..))
    }

    /// The event and the state as the library's four numbers.
    #[inline]
    fn numbers(&self) -> [u32; 4] {
        let state = match self.state {
            Sending::Cycle => u32::from(b'C'),
            Sending::Instant => u32::from(b'I'),
        };
        match self.event {
            Event::RoundEnd(records) => [0, records, 0, state],
            Event::Halted(at, Resume::Open) => [1, at, SHORT_NINES, state],
            // no time of day, and not to be taken for one that is open: any other such number answers 14 too
            Event::Halted(at, Resume::At(SHORT_NINES)) => [1, at, SHORT_NINES + 1, state],
            Event::Halted(at, Resume::At(resumed)) => [1, at, resumed, state],
        }
    }

    /// Takes over the four numbers of an accepted frame.
    #[inline]
    fn take(&mut self, [kind, number, resumed, state]: [u32; 4]) {
        self.event = match (kind, resumed) {
            (0, _) => Event::RoundEnd(number),
            (_, SHORT_NINES) => Event::Halted(number, Resume::Open),
            _ => Event::Halted(number, Resume::At(resumed)),
        };
        self.state = if state == u32::from(b'C') { Sending::Cycle } else { Sending::Instant };
    }
}

/// Reads the halt at a place of a line.
#[inline]
pub fn read_halt(line: &[u8], at: usize) -> Result<(Frame, Halt), NotRead> {
    let mut halt = Halt::default();
    let frame = read_halt_into(line, at, &mut halt)?;
    Ok((frame, halt))
}

/// The same into a lent halt. A refusal and an accepted frame of another format leave it as it was.
#[inline]
pub fn read_halt_into(line: &[u8], at: usize, halt: &mut Halt) -> Result<Frame, NotRead> {
    let mut event = [0; 4];
    let frame = Outcome::of(raw::read_halt(line, at, &mut halt.code.0, &mut event)).frame_of(Halt::FORMAT)?;
    halt.seq = frame.seq;
    halt.take(event);
    Ok(frame)
}

/// Writes a halt as a frame at the start of a buffer, and gives the frame's length.
#[inline]
pub fn write_halt(halt: &Halt, buffer: &mut [u8]) -> Result<usize, NotWritten> {
    written(raw::write_halt(halt.seq, &halt.code.0, &halt.numbers(), buffer))
}
