//! The refusals of a closed line: a JSON object a line for each refused frame and for each run of skipped bytes, without
//! blanks outside strings.

use std::fmt;
use std::io::{self, Read, Write};

use crate::digits;
use crate::exchange::{Exchange, Stock};
use crate::pieces::each_move_of;
use crate::reading::{Answer, NoFrame, Refusal};
use crate::{five, nineteen, six, twelve};

/// The most bytes that are shown of a frame or a run.
const SHOWN: usize = 64;

/// Reads a line of the stock exchange to its end and writes its refusals.
pub fn tell<R: Read, W: Write>(input: R, output: W) -> io::Result<()> {
    tell_of::<Stock, R, W>(input, output)
}

/// The same for a line of any exchange.
pub fn tell_of<E: Exchange, R: Read, W: Write>(input: R, mut output: W) -> io::Result<()> {
    let mut run: Option<Row> = None;
    each_move_of::<E, _, _>(input, |at, answer, bytes| {
        if let Answer::NoFrame { .. } = answer {
            run.get_or_insert_with(|| Row::new::<E>(at, answer, bytes)).add(bytes);
            return Ok(());
        }
        if let Some(ended) = run.take() {
            writeln!(output, "{ended}")?;
        }
        if let Answer::Refused { .. } = answer {
            let mut row = Row::new::<E>(at, answer, bytes);
            row.add(bytes);
            writeln!(output, "{row}")?;
        }
        Ok(())
    })?;
    if let Some(ended) = run {
        writeln!(output, "{ended}")?;
    }
    output.flush()
}

/// A refused frame, or a run of skipped bytes that may go on.
struct Row {
    at: u64,
    answer: u8,
    place: Option<usize>,
    why: &'static str,
    bytes: u64,
    /// Its first bytes, as far as it has them.
    first: [u8; SHOWN],
}

impl Row {
    /// A row without bytes yet, with the answer at its first ones, which are all bytes of a refused frame.
    fn new<E: Exchange>(at: u64, answer: &Answer<E::Message>, bytes: &[u8]) -> Row {
        let why = why::<E>(answer, bytes);
        Row { at, answer: answer.number(), place: answer.place(), why, bytes: 0, first: [0; SHOWN] }
    }

    fn add(&mut self, bytes: &[u8]) {
        let shown = self.shown();
        if shown < SHOWN {
            let fitting = bytes.len().min(SHOWN - shown);
            self.first[shown..shown + fitting].copy_from_slice(&bytes[..fitting]);
        }
        self.bytes += bytes.len() as u64;
    }

    /// How many of its bytes are shown.
    fn shown(&self) -> usize {
        self.bytes.min(SHOWN as u64) as usize
    }
}

impl fmt::Display for Row {
    fn fmt(&self, f: &mut fmt::Formatter) -> fmt::Result {
        write!(f, "{{\"at\":{},\"answer\":{},\"bytes\":{},\"place\":", self.at, self.answer, self.bytes)?;
        match self.place {
            Some(place) => write!(f, "{place}"),
            None => f.write_str("null"),
        }?;
        write!(f, ",\"hex\":\"{}\",\"why\":\"{}\"}}", hex(&self.first[..self.shown()]), self.why)
    }
}

/// Two digits for each byte, in lower case.
fn hex(bytes: &[u8]) -> String {
    let halves = bytes.iter().flat_map(|byte| [byte >> 4, byte & 0x0F]);
    halves.filter_map(|half| char::from_digit(u32::from(half), 16)).collect()
}

/// The words for the answer to some bytes; an accepted frame has none.
fn why<E: Exchange>(answer: &Answer<E::Message>, bytes: &[u8]) -> &'static str {
    match *answer {
        Answer::Accepted { .. } => "",
        Answer::Refused { why, .. } => E::why_refused(why, bytes),
        Answer::NoFrame { why: NoFrame::NotAStart, .. } => "no frame begins here: the first byte is not 1B",
        Answer::NoFrame { why: NoFrame::TooFewBytes, .. } => "the line ends before this frame does",
        Answer::NoFrame { why: NoFrame::Length, place: Some(_) } => "the length has a bad digit",
        Answer::NoFrame { why: NoFrame::Length, place: None } => E::WHY_LENGTH,
        Answer::NoFrame { why: NoFrame::End, .. } => "the frame does not end in 0D 0A where its length says",
        Answer::NoFrame { why: NoFrame::Check, .. } => {
            "the check byte is not the exclusive-or of the bytes that it covers"
        }
    }
}

/// The words of the stock exchange.
pub(crate) const WHY_LENGTH: &str = "the length is below 14 or above 1024";

pub(crate) const WHY_DIGIT: &str = "a packed field of the body has a bad digit";

pub(crate) fn why_refused(why: Refusal, frame: &[u8]) -> &'static str {
    match why {
        Refusal::HeaderDigit => "the header, bytes 4 to 10, has a bad digit",
        Refusal::Format => "the business is not 01, or the format is not 05, 06, 12 or 19",
        Refusal::Version => "the version is not that of the format",
        Refusal::Length => "the length is not one that the format, or the reveal byte, allows",
        Refusal::Levels => "the reveal byte has more than 5 levels on a side, or levels with bit 0 set",
        Refusal::Digit => WHY_DIGIT,
        Refusal::Time => broken(frame)[0],
        Refusal::Field => broken(frame)[1],
    }
}

/// What can be the matter with the times, and with the other fields, of a frame whose header is that of a format.
fn broken(frame: &[u8]) -> [&'static str; 2] {
    match digits::two_digits(frame[4]) {
        Some(five::FORMAT) => ["", "the category is not 00, 09, 90 or 99"],
        Some(six::FORMAT) => [
            "the time is no time of day, or twelve nines stand without the code 000000, or that code without them",
            "a code byte is not 32 to 126",
        ],
        Some(twelve::FORMAT) => [
            "the time of a slot is no time of day, or twelve nines stand in a slot behind the count",
            "the count is not 1 to 10, a code byte is not 32 to 126, or a slot behind the count is not six spaces and \
             zeros",
        ],
        Some(nineteen::FORMAT) => [
            "the halt time is no time of day, or the resume time is neither a time of day nor 999999",
            "the state is not C or I, a code byte is not 32 to 126, or the code of a round's end is not six digits",
        ],
        _ => [""; 2],
    }
}
