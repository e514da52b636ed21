//! A ledger's record in both layouts: the library's falling list of ends with the floor and the given-up count behind it, and
//! the second program's highest number and runs.

use second::ledger::{Ledger, Run, MOST_RUNS};

pub const ENDS: usize = 129;

/// A record as the library has it: the ends, the floor, and how many numbers were given up.
pub type Numbers = [u32; ENDS + 2];

/// The record of a ledger that arrivals and give-ups left. Its ends are the highest, then of each run from the top its last
/// number and the number before its first.
pub fn numbers_of(ledger: &Ledger) -> Numbers {
    let mut numbers = [0; ENDS + 2];
    let [ends @ .., floor, given_up] = &mut numbers;
    ends[0] = ledger.highest;
    for (run, pair) in ledger.runs[..ledger.count].iter().rev().zip(ends[1..].chunks_exact_mut(2)) {
        pair.copy_from_slice(&[run.last, run.first - 1]);
    }
    (*floor, *given_up) = (ledger.floor, ledger.given_up);
    numbers
}

/// Any numbers as the second program's record: a pair of ends is a run while the upper one is not 0, and what stands behind is
/// put behind the count. How many were heard is what the runs and the given-up numbers leave, so that a fault of the numbers is
/// the only one.
pub fn ledger_of(numbers: &Numbers) -> Ledger {
    let &[ref ends @ .., floor, given_up] = numbers;
    let run = |pair: &[u32]| match *pair {
        [0, 0] => Run::default(),
        [last, before] => Run { first: before.wrapping_add(1), last },
        _ => Run::default(),
    };
    let mut ledger = Ledger { highest: ends[0], floor, given_up, ..Ledger::FRESH };
    for (place, pair) in ends[1..].chunks_exact(2).enumerate() {
        ledger.runs[place] = run(pair);
    }
    ledger.count = ledger.runs.iter().position(|run| run.last == 0).unwrap_or(MOST_RUNS);
    ledger.runs[..ledger.count].reverse();
    let missing = |run: &Run| i64::from(run.last) - i64::from(run.first) + 1;
    let settled = i64::from(ends[0]) - ledger.runs[..ledger.count].iter().map(missing).sum::<i64>();
    ledger.heard = u32::try_from(settled - i64::from(given_up)).unwrap_or(0);
    ledger
}

/// How many ends are used, up to the first 0.
pub fn used(numbers: &Numbers) -> usize {
    numbers[..ENDS].iter().position(|&end| end == 0).unwrap_or(ENDS)
}

/// A record for a person to read: the ends up to the last that is not 0, the floor, and how many numbers were given up.
pub fn shown(numbers: &Numbers) -> (&[u32], u32, u32) {
    let &[ref ends @ .., floor, given_up] = numbers;
    (&ends[..ends.iter().rposition(|&end| end != 0).map_or(0, |last| last + 1)], floor, given_up)
}
