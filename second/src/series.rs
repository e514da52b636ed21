//! Series of frame numbers for the comparison of ledgers: in order, with gaps, late, twice, with more runs than there is room
//! for, and with runs that are given up.

use std::fmt;

use crate::gaps::{hear, WhenFull};
use crate::ledger::{Arrival, Ledger, Refusal, GREATEST_NUMBER, MOST_RUNS};
use crate::random::Random;

/// The most bytes of one text: the proved program reads no more than 65,536.
const TEXT: usize = 60_000;

/// What happens to a ledger. Shown as a line that `numbers` reads.
#[derive(Clone, Copy, Debug, PartialEq, Eq)]
pub enum Event {
    Arrival(u32),
    GiveUp,
}

impl fmt::Display for Event {
    fn fmt(&self, f: &mut fmt::Formatter) -> fmt::Result {
        match self {
            Event::Arrival(number) => write!(f, "{number}"),
            Event::GiveUp => f.write_str("give-up"),
        }
    }
}

#[derive(Clone, Copy)]
enum Phase {
    Order,
    Gaps,
    Late,
    Mixed,
}

/// A series over a ledger of its own, by which it knows what is missing.
pub struct Series {
    ledger: Ledger,
    when_full: WhenFull,
    phase: Phase,
    left: usize,
}

impl Series {
    pub fn new(when_full: WhenFull) -> Series {
        Series { ledger: Ledger::FRESH, when_full, phase: Phase::Order, left: 10 }
    }

    /// The next number, 0 to 99,999,999.
    pub fn next(&mut self, random: &mut Random) -> u32 {
        if self.left == 0 {
            self.phase =
                random.pick(&[Phase::Order, Phase::Order, Phase::Gaps, Phase::Late, Phase::Late, Phase::Mixed]);
            self.left = match self.phase {
                Phase::Gaps => random.within(10..=120),
                _ => random.within(10..=250),
            };
        }
        self.left -= 1;
        let highest = self.ledger.highest;
        let number = match self.phase {
            Phase::Order => match random.below(20) {
                0 => self.heard_before(random),
                1 => highest + 2,
                _ => highest + 1,
            },
            Phase::Gaps => match random.below(10) {
                0 => highest + 1,
                1 => self.late(random),
                _ => highest + 2 + random.pick(&[0, 1, 2, 9]),
            },
            Phase::Late => match random.below(30) {
                0 => highest + 1,
                1 => self.heard_before(random),
                2 => self.near_floor(random),
                _ => self.late(random),
            },
            Phase::Mixed => match random.below(8) {
                0 => 0,
                1 => self.heard_before(random),
                2 => self.late(random),
                3 => highest + 2 + random.below(20) as u32,
                4 if random.one_in(50) => highest + random.below(100_000) as u32,
                5 if random.one_in(500) => random.amount(u64::from(GREATEST_NUMBER)) as u32,
                6 => self.near_floor(random),
                _ => highest + 1,
            },
        };
        number.min(GREATEST_NUMBER)
    }

    /// Records that a number came, so that the next one goes on from there.
    pub fn came(&mut self, number: u32) -> Result<Arrival, Refusal> {
        hear(&mut self.ledger, number, self.when_full)
    }

    /// Gives the lowest run up, if there is one.
    fn give_up(&mut self) -> Event {
        let _ = self.ledger.give_up();
        Event::GiveUp
    }

    /// The next number, or one outside the allowed numbers.
    fn any(&mut self, random: &mut Random) -> u32 {
        match random.below(100) {
            0 => 0,
            1 => 100_000_000 + random.amount(899_999_999) as u32,
            2 if random.one_in(20) => random.pick(&[99_999_998, 99_999_999]),
            _ => self.next(random),
        }
    }

    /// Anything up to the highest, mostly heard already.
    fn heard_before(&self, random: &mut Random) -> u32 {
        match random.below(3) {
            0 => self.ledger.highest,
            1 => self.ledger.highest.saturating_sub(random.below(10) as u32),
            _ => random.below(u64::from(self.ledger.highest) + 1) as u32,
        }
    }

    /// The floor, or a few numbers below it or above.
    fn near_floor(&self, random: &mut Random) -> u32 {
        (self.ledger.floor + 3).saturating_sub(random.below(10) as u32)
    }

    /// A missing number: a run's first, last or any; often of the shortest run, so that runs are filled, and of the lowest,
    /// which is given up first.
    fn late(&self, random: &mut Random) -> u32 {
        let runs = &self.ledger.runs[..self.ledger.count];
        if runs.is_empty() {
            return self.ledger.highest + 1;
        }
        let shortest = runs.iter().min_by_key(|run| run.last - run.first).copied().unwrap_or_default();
        let run = match random.below(6) {
            0 | 1 => random.pick(runs),
            2 => runs[0],
            _ => shortest,
        };
        let splits = if self.ledger.count == MOST_RUNS { 4 } else { 40 };
        match random.below(splits) {
            0 => run.first + random.below(u64::from(run.last - run.first) + 1) as u32,
            n if n % 2 == 0 => run.first,
            _ => run.last,
        }
    }
}

/// Texts of series with so many arrivals in all, of give-ups among them, and of lent records, as `numbers` reads them.
pub fn texts(seed: u64, arrivals: usize) -> Vec<String> {
    let mut random = Random::new(!seed);
    let mut texts = vec![String::new()];
    let mut left = arrivals;
    while left > 0 {
        let length = match random.below(4) {
            0 => random.within(0..=10),
            1 => random.within(0..=3000),
            _ => random.within(0..=600),
        };
        let mut piece = one_series(&mut random, length.min(left));
        left -= length.min(left);
        for _ in 0..random.below(8) {
            piece += &lent(&mut random);
        }
        match texts.last_mut() {
            Some(text) if text.len() + piece.len() <= TEXT => *text += &piece,
            _ => texts.push(piece),
        }
    }
    texts
}

/// A series of so many arrivals, some of them outside the allowed numbers. In most series runs are given up, too: at any time,
/// and for a number that found no room, which then comes again.
pub fn events(random: &mut Random, arrivals: usize) -> Vec<Event> {
    let gives_up = !random.one_in(3);
    let mut series = Series::new(WhenFull::Refuse);
    let mut events = Vec::new();
    let mut without_room = None;
    for _ in 0..arrivals {
        let times = match without_room {
            Some(_) => 1,
            // all of them and one more, at times
            None if gives_up && random.one_in(40) => random.pick(&[1, 1, 1, 1, 1, 2, 2, 5, 9, series.ledger.count + 1]),
            None => 0,
        };
        events.extend((0..times).map(|_| series.give_up()));
        let number = without_room.unwrap_or_else(|| series.any(random));
        let is_full = series.came(number) == Err(Refusal::Full);
        without_room = (gives_up && is_full && random.one_in(2)).then_some(number);
        events.push(Event::Arrival(number));
    }
    events
}

/// An event a line, and an empty line.
fn one_series(random: &mut Random, arrivals: usize) -> String {
    events(random, arrivals).iter().map(|event| format!("{event}\n")).collect::<String>() + "\n"
}

/// A record that may have a fault, on one line: falling ends and zeros behind them, and perhaps a floor.
fn lent(random: &mut Random) -> String {
    let has_floor = random.one_in(2);
    let count = if random.one_in(4) { random.within(126..=129) } else { random.within(2..=12) };
    let mut ends = Vec::new();
    let mut end = random.below(3) as u32;
    if has_floor {
        end += random.pick(&[0, 1, 5, 1000]);
    }
    for _ in 0..count {
        end += 1 + random.pick(&[0, 0, 0, 1, 4, 700_000]);
        ends.push(end);
    }
    ends.reverse();
    let behind = if has_floor { floor_below(&ends, random) } else { String::new() };
    let place = random.within(0..=count - 1);
    match random.below(10) {
        0 => ends[place] = 0,
        1 => ends[place] = ends[count - 1 - place],
        2 => ends[place] += 1,
        3 => ends[0] = random.pick(&[99_999_999, 100_000_000, 999_999_999]),
        4 => ends[place..].fill(0),
        5 => ends.swap(place, 0),
        _ => {}
    }
    if random.one_in(3) {
        ends.resize(random.within(count..=129), 0);
    }
    let ends: Vec<String> = ends.iter().map(u32::to_string).collect();
    ends.join(" ") + &behind + "\n"
}

/// A floor and how many numbers were given up, of which either may be wrong, as they stand behind the ends of a record.
fn floor_below(ends: &[u32], random: &mut Random) -> String {
    let (highest, lowest) = (ends[0], ends[ends.len() - 1]);
    let any = random.below(u64::from(highest) + 2) as u32;
    let below = random.below(u64::from(lowest)) as u32;
    let floor = match random.below(4) {
        0 => random.pick(&[0, 1, lowest, lowest + 1, highest - 1, highest, any, 99_999_999, 999_999_999]),
        1 => below,
        _ => lowest - 1,
    };
    let some = random.below(u64::from(floor) + 1) as u32;
    let given_up = match random.below(3) {
        0 => random.pick(&[0, 1, (floor + 1).min(999_999_999), highest, 99_999_999, 999_999_999]),
        1 => floor,
        _ => some.max(1),
    };
    let slash = random.pick(&[" / ", "/", " /", "/ "]);
    format!("{slash}{floor} {given_up}")
}
