//! A long line of good quotes in memory, walked for its tally.

use std::hint::black_box;

use crate::kinds::{Kind, TYPICAL};
use crate::timing::{both, Effort, Row};

const PART: &str = "walk";

pub fn walking(effort: Effort, kinds: &[Kind]) -> Result<Row, String> {
    let kind = kinds.iter().find(|kind| kind.name == TYPICAL).ok_or("there are no such quotes")?;
    let times = (effort.line / kind.line.len()).max(1);
    let line = kind.line.repeat(times);
    let proved = || {
        let mut tally = trivsome::Tally::default();
        let answer = tally.walk(black_box(&line), trivsome::Line::Closed);
        sum(answer.is_ok(), [tally.accepted, tally.refused, tally.skipped, tally.waiting])
    };
    let second = || {
        let mut tally = second::walk::Tally::default();
        let answer = tally.walk(black_box(&line), second::walk::Line::Closed);
        sum(answer.is_ok(), [tally.accepted, tally.refused, tally.skipped, tally.waiting])
    };
    let all = sum(true, [line.len() as u64, 0, 0, 0]);
    if proved() != all || second() != all {
        return Err(format!("the tallies differ: {} and {}, and not {all}", proved(), second()));
    }
    let (proved, second) = both(effort, times * kind.places.len(), proved, second)?;
    let name = format!("{}, {} MB", kind.name, (line.len() + 500_000) / 1_000_000);
    Ok(Row { part: PART, name, bytes: kind.bytes(), proved, second })
}

fn sum(is_ok: bool, [accepted, refused, skipped, waiting]: [u64; 4]) -> u64 {
    u64::from(is_ok) + 2 * accepted + 3 * refused + 5 * skipped + 7 * waiting
}
