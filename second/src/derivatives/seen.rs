//! What occurs on a line of this exchange: every answer of the reading with its causes, and every place of a bad half, counted,
//! and every accepted message written back.

use std::collections::BTreeSet;
use std::fmt;

use crate::derivatives::message::{is_market, SHORT};
use crate::derivatives::{write, Derivatives2015, Kind, Message};
use crate::digits;
use crate::reading::{Answer, Refusal};
use crate::seen::{around_of, cases, write_back};
use crate::times;
use crate::walk::{walk_of, Line};

/// The causes of 3, 7, 9, 12 and 13, in the order of their counts.
pub const LENGTHS: [&str; 2] = ["a bad digit", "too long"];
pub const FORMATS: [&str; 3] = ["transmission code", "kind", "both"];
pub const BODIES: [&str; 4] = ["none", "under 12", "13 to 16", "over 17"];
pub const TIMES: [&str; 3] = ["the header's", "the body's", "both"];
pub const FIELDS: [&str; 3] = ["contract", "status bit", "both"];

/// Where a bad half stands, and how many halves there are.
pub const HALVES: [(&str, usize); 4] =
    [("the length", 4), ("the header", 18), ("a short body", 16), ("a long body", 16)];

/// Accepted frames, by kind, market and form.
pub const ACCEPTED: [&str; 8] = [
    "I060 1 short",
    "I060 1 long",
    "I060 4 short",
    "I060 4 long",
    "I064 1 short",
    "I064 1 long",
    "I064 4 short",
    "I064 4 long",
];

/// How often each answer occurred, over some lines.
#[derive(Clone, Debug, Default, PartialEq, Eq)]
pub struct Seen {
    /// By the answers' numbers, at every place of the walk; 10 has none.
    pub answers: [u64; 14],
    /// 3, by its cause.
    pub lengths: [u64; 2],
    /// 7, by its cause.
    pub formats: [u64; 3],
    /// 9, by the body's length.
    pub bodies: [u64; 4],
    /// 12, by the time that is none.
    pub times: [u64; 3],
    /// 13, by its cause.
    pub fields: [u64; 3],
    /// The places of the bad halves that were told.
    pub halves: [BTreeSet<usize>; HALVES.len()],
    /// Accepted frames, each of which was written back and gave its own bytes.
    pub accepted: [u64; 8],
    /// Those of them that are the same as the one before.
    pub repeated: u64,
}

impl Seen {
    /// Adds what occurs on a closed line. Gives the first frame that is not the same when it is written back.
    pub fn line(&mut self, line: &[u8]) -> Result<(), String> {
        let mut before = None;
        for step in walk_of::<Derivatives2015>(line, Line::Closed) {
            let bytes = &line[step.place..step.place + step.bytes];
            self.answers[usize::from(step.answer.number())] += 1;
            match step.answer {
                Answer::Accepted { ref message, .. } => {
                    write_back(bytes, |buffer| write(message, buffer))
                        .map_err(|what| format!("{what}\n{}", around_of::<Derivatives2015>(line, step.place)))?;
                    self.accepted[accepted_case(message)] += 1;
                    self.repeated += u64::from(before == Some(*message));
                    before = Some(*message);
                }
                Answer::Refused { why, place, .. } => self.refused(bytes, why, place),
                Answer::NoFrame { place, .. } if step.answer.number() == 3 => {
                    self.lengths[usize::from(place.is_none())] += 1;
                    self.halves[0].extend(place);
                }
                Answer::NoFrame { .. } => {}
            }
        }
        Ok(())
    }

    /// Adds a refused frame by its cause, which is looked for in its bytes.
    fn refused(&mut self, frame: &[u8], why: Refusal, place: Option<usize>) {
        match why {
            Refusal::HeaderDigit => self.halves[1].extend(place),
            Refusal::Format => self.formats[either(!is_market(frame[1]), Kind::of(frame[2]).is_none())] += 1,
            Refusal::Length => {
                self.bodies[match frame.len() - 17 {
                    0 => 0,
                    1..=11 => 1,
                    12..=17 => 2,
                    _ => 3,
                }] += 1;
            }
            Refusal::Digit => self.halves[if frame.len() == 29 { 2 } else { 3 }].extend(place),
            Refusal::Time => {
                let is_wrong = |at: usize| {
                    digits::number(&frame[at..at + 4]).is_some_and(|time| !times::is_hundredths(time as u32))
                };
                self.times[either(is_wrong(3), is_wrong(frame.len() - 12))] += 1;
            }
            Refusal::Field => {
                let (contract, status) = (&frame[14..frame.len() - 12], frame[frame.len() - 4]);
                let reserved = if frame[2] == b'5' { 0xFE } else { 0xF8 };
                let is_wrong = |byte: &u8| !(32..=126).contains(byte);
                self.fields[either(contract.iter().any(is_wrong), status & reserved != 0)] += 1;
            }
            Refusal::Version | Refusal::Levels => {}
        }
    }

    /// Whether everything that is counted occurred, and 10 did not.
    pub fn is_all(&self) -> bool {
        let counts =
            self.lengths.iter().chain(&self.formats).chain(&self.bodies).chain(&self.times).chain(&self.fields);
        let mut counts = counts.chain(&self.accepted).chain([&self.repeated]);
        let mut halves = HALVES.iter().zip(&self.halves);
        self.answers.iter().enumerate().all(|(answer, &times)| (times > 0) == (answer != 10))
            && counts.all(|&times| times > 0)
            && halves.all(|((_, all), told)| told.len() == *all)
    }
}

impl fmt::Display for Seen {
    fn fmt(&self, f: &mut fmt::Formatter) -> fmt::Result {
        f.write_str("reading:")?;
        for (answer, times) in self.answers.iter().enumerate() {
            write!(f, " {answer}:{times}")?;
        }
        let causes: [(u8, &[&str], &[u64]); 5] = [
            (3, &LENGTHS, &self.lengths),
            (7, &FORMATS, &self.formats),
            (9, &BODIES, &self.bodies),
            (12, &TIMES, &self.times),
            (13, &FIELDS, &self.fields),
        ];
        for (answer, names, times) in causes {
            write!(f, "; {answer} for ")?;
            cases(f, names, times)?;
        }
        let told: Vec<_> = HALVES.iter().zip(&self.halves).collect();
        let told: Vec<_> = told.iter().map(|((name, all), told)| format!("{name} {} of {all}", told.len())).collect();
        write!(f, "\nbad halves told in {}\naccepted and written back: ", told.join(", "))?;
        cases(f, &ACCEPTED, &self.accepted)?;
        write!(f, "; repeated {}", self.repeated)
    }
}

/// Which of two causes there is: the first, the second, both.
fn either(first: bool, second: bool) -> usize {
    match (first, second) {
        (true, false) => 0,
        (false, _) => 1,
        (true, true) => 2,
    }
}

/// Which case a message is that is accepted.
fn accepted_case(message: &Message) -> usize {
    let bits = [message.kind == Kind::I064, message.market == b'4', message.contract_length != SHORT];
    bits.iter().fold(0, |case, &bit| 2 * case + usize::from(bit))
}
