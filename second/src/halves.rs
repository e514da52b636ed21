//! Which bad halves were told over some lines: each half of each packed field has its turn.

use std::collections::BTreeSet;
use std::fmt;

use crate::reading::Answer;

/// Where a bad half stands, and how many halves there are. A price's first half is bad above 9 as all are, and with 1 to 9 too.
pub const KINDS: [(&str, usize); 8] = [
    ("the length", 4),
    ("the header", 14),
    ("five", 2),
    ("six", 218),
    ("twelve", 602),
    ("nineteen", 12),
    ("a price of six that begins with 1 to 9", 11),
    ("the same of twelve", 40),
];

#[derive(Clone, Debug, Default, PartialEq, Eq)]
pub struct Halves {
    /// Lengths with a bad digit, and those out of range.
    pub lengths: [u64; 2],
    /// The places that were told, by their kinds.
    pub told: [BTreeSet<usize>; KINDS.len()],
}

impl Halves {
    /// Adds the answer to some bytes, which are given from the place that was read.
    pub fn add(&mut self, answer: &Answer, bytes: &[u8]) {
        if answer.number() == 3 {
            self.lengths[usize::from(answer.place().is_none())] += 1;
        }
        if let Some(place) = answer.place() {
            self.told[kind(answer.number(), bytes, place)].insert(place);
        }
    }

    /// What did not occur.
    pub fn missed(&self) -> Option<String> {
        if self.lengths.contains(&0) {
            return Some("a length with a bad digit, or one out of range".into());
        }
        let mut kinds = KINDS.iter().zip(&self.told);
        let missed = kinds.find(|((_, halves), told)| told.len() != *halves);
        missed.map(|((name, halves), told)| format!("all but {} of {halves} bad halves in {name}", told.len()))
    }
}

impl fmt::Display for Halves {
    fn fmt(&self, f: &mut fmt::Formatter) -> fmt::Result {
        let [digit, range] = self.lengths;
        write!(f, "lengths with a bad digit {digit}, out of range {range}; bad halves told in ")?;
        let kinds = KINDS.iter().zip(&self.told);
        let shown: Vec<_> = kinds.map(|((name, halves), told)| format!("{name} {} of {halves}", told.len())).collect();
        f.write_str(&shown.join(", "))
    }
}

/// The kind of a half that was told with 3, 6 or 11. One of 1 to 9 is bad only where a price begins.
fn kind(answer: u8, bytes: &[u8], place: usize) -> usize {
    let two = bytes[place / 2];
    let half = if place % 2 == 1 { two & 0x0F } else { two >> 4 };
    match (answer, bytes.get(4)) {
        (3, _) => 0,
        (6, _) => 1,
        (_, Some(0x05)) => 2,
        (_, Some(0x06)) if half < 10 => 6,
        (_, Some(0x06)) => 3,
        (_, Some(0x12)) if half < 10 => 7,
        (_, Some(0x12)) => 4,
        _ => 5,
    }
}
