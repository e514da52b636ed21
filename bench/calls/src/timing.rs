//! Two sides timed in turn, so that whatever else the machine does disturbs both alike.

use std::hint::black_box;
use std::time::{Duration, Instant};

/// How much is timed.
#[derive(Clone, Copy)]
pub struct Effort {
    /// How long one side is timed before the other has its turn.
    pub round: Duration,
    /// How often each has its turn; the best counts. Where one turn takes longer than a round, it is a third of it.
    pub rounds: usize,
    /// The arrivals of a series.
    pub arrivals: usize,
    /// The bytes of a line that is walked.
    pub line: usize,
}

/// A figure: what was timed, the bytes of one item (0 where it has none), and nanoseconds an item, proved and second.
pub struct Row {
    pub part: &'static str,
    pub name: String,
    pub bytes: f64,
    pub proved: f64,
    pub second: f64,
}

/// Times two sides that do the same work on so many items. Each gives a sum of its answers, which have to be the same.
pub fn both(
    effort: Effort,
    items: usize,
    mut proved: impl FnMut() -> u64,
    mut second: impl FnMut() -> u64,
) -> Result<(f64, f64), String> {
    // once to warm up, once to see how many turns make a round
    timed(1, &mut proved);
    timed(1, &mut second);
    let slower = timed(1, &mut proved).1.max(timed(1, &mut second).1);
    let turns = (effort.round.as_nanos() / slower.as_nanos().max(1)).max(1) as u64;
    let mut best = (Duration::MAX, Duration::MAX);
    let rounds = if turns == 1 { effort.rounds.div_ceil(3) } else { effort.rounds };
    for _ in 0..rounds {
        let (ours, theirs) = (timed(turns, &mut proved), timed(turns, &mut second));
        if ours.0 != theirs.0 {
            return Err(format!("the answers differ while timed: their sums are {} and {}", ours.0, theirs.0));
        }
        best = (best.0.min(ours.1), best.1.min(theirs.1));
    }
    let each = |time: Duration| time.as_nanos() as f64 / (turns * items as u64) as f64;
    Ok((each(best.0), each(best.1)))
}

fn timed(turns: u64, side: &mut impl FnMut() -> u64) -> (u64, Duration) {
    let start = Instant::now();
    let mut sum = 0_u64;
    for _ in 0..turns {
        sum = sum.wrapping_add(black_box(side()));
    }
    (sum, start.elapsed())
}
