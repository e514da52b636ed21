//! Arrivals at a ledger, in series that open and fill runs of missing numbers, find them open, or find a floor.

use std::hint::black_box;

use second::ledger::{Arrival, Ledger};
use second::random::Random;
use second::series::Event;

use crate::timing::{both, Effort, Row};

const PART: &str = "arrivals";

/// What is timed for each number of a series.
#[derive(Clone, Copy)]
enum Step {
    Arrival,
    /// The lowest run is given up, and then the number arrives.
    GiveUpAndArrival,
}

/// A series, and what happened before it is timed.
struct Series {
    name: &'static str,
    before: Vec<Event>,
    step: Step,
    numbers: Vec<u32>,
}

impl Series {
    fn new(name: &'static str, before: &[Event], numbers: Vec<u32>) -> Series {
        Series { name, before: before.to_vec(), step: Step::Arrival, numbers }
    }

    /// What happens while it is timed.
    fn events(&self) -> impl Iterator<Item = Event> + '_ {
        let gives_up = matches!(self.step, Step::GiveUpAndArrival);
        let before = move || gives_up.then_some(Event::GiveUp);
        self.numbers.iter().flat_map(move |&number| before().into_iter().chain([Event::Arrival(number)]))
    }
}

/// All series, each of so many arrivals.
fn series(many: usize) -> Vec<Series> {
    let last = many as u32;
    let full: Vec<Event> = (1..=64).map(|half| Event::Arrival(2 * half)).collect();
    let without = |lowest: usize| [&full[..], &vec![Event::GiveUp; lowest]].concat();
    let mut random = Random::new(10);
    let mut heard = || 2 * (1 + random.below(64) as u32);
    let mut other = Random::new(11);
    // half of the runs are given up, up to 63
    let mut late = || 1 + other.below(63) as u32;
    vec![
        Series::new("in order", &[], (1..=last).collect()),
        // of each ten numbers the fourth and the eighth come behind the tenth
        Series::new("with gaps", &[], blocks(last, 10, |n| n % 4 != 0)),
        // of each 64 numbers the even ones come first, so that up to 32 runs are open
        Series::new("half of them late", &[], blocks(last, 64, |n| n % 2 == 0)),
        Series::new("in order, 64 runs open", &full, (129..129 + last).collect()),
        Series::new("repeats, 64 runs open", &full, (0..last).map(|_| heard()).collect()),
        Series::new("refused with 22", &full, (0..last).map(|n| 1000 + n).collect()),
        Series::new("in order, above a floor", &[Event::Arrival(2), Event::GiveUp], (3..3 + last).collect()),
        Series::new("in order, a floor and 63 runs open", &without(1), (129..129 + last).collect()),
        Series::new("late, at or below the floor", &without(32), (0..last).map(|_| late()).collect()),
        Series {
            // each number opens a run, for which there is no room before
            step: Step::GiveUpAndArrival,
            ..Series::new("give up and go on", &full, (0..last).map(|n| 130 + 2 * n).collect())
        },
    ]
}

/// The numbers from 1 on, in blocks of a size: of each block those that come first, then the others.
fn blocks(last: u32, size: u32, first: impl Fn(u32) -> bool) -> Vec<u32> {
    let mut numbers = Vec::new();
    for start in (1..=last).step_by(size as usize) {
        let block = || (1..=size).map(move |place| (place, start + place - 1)).filter(|(_, n)| *n <= last);
        numbers.extend(block().filter(|(place, _)| first(*place)).map(|(_, n)| n));
        numbers.extend(block().filter(|(place, _)| !first(*place)).map(|(_, n)| n));
    }
    numbers
}

pub fn arrivals(effort: Effort) -> Result<Vec<Row>, String> {
    series(effort.arrivals).iter().map(|series| one(effort, series)).collect()
}

fn one(effort: Effort, series: &Series) -> Result<Row, String> {
    let Ledgers { ours, theirs } = agree(series).map_err(|what| format!("arrivals {}: {what}", series.name))?;
    let arrive = |ledger: &mut trivsome::Ledger, number| ledger.arrive(number) == Ok(trivsome::Arrival::New);
    let arrival = |ledger: &mut Ledger, number| ledger.arrival(number) == Ok(Arrival::New);
    let numbers = &series.numbers;
    let (proved, second) = match series.step {
        Step::Arrival => both(effort, numbers.len(), || done(ours, numbers, arrive), || done(theirs, numbers, arrival)),
        Step::GiveUpAndArrival => both(
            effort,
            numbers.len(),
            || done(ours, numbers, |ledger, number| ledger.give_up().is_ok() && arrive(ledger, number)),
            || done(theirs, numbers, |ledger, number| ledger.give_up().is_ok() && arrival(ledger, number)),
        ),
    }?;
    Ok(Row { part: PART, name: series.name.into(), bytes: 0.0, proved, second })
}

/// How many numbers of a series are new.
fn done<L>(mut ledger: L, numbers: &[u32], is_new: impl Fn(&mut L, u32) -> bool) -> u64 {
    let mut new = 0;
    for &number in black_box(numbers) {
        new += u64::from(is_new(&mut ledger, number));
    }
    black_box(&ledger);
    new
}

/// The proved ledger and the second program's.
#[derive(Clone, Copy)]
struct Ledgers {
    ours: trivsome::Ledger,
    theirs: Ledger,
}

impl Ledgers {
    /// An event, which both answer the same.
    fn happens(&mut self, event: Event) -> Result<(), String> {
        let Ledgers { ours, theirs } = self;
        let (own, other) = match event {
            Event::Arrival(number) => (
                ours.arrive(number).map(|arrival| (u32::from(arrival == trivsome::Arrival::New), 0)),
                theirs.arrival(number).map(|arrival| (u32::from(arrival == Arrival::New), 0)),
            ),
            Event::GiveUp => {
                (ours.give_up().map(|run| (run.first, run.last)), theirs.give_up().map(|run| (run.first, run.last)))
            }
        };
        let (own, other) = (own.map_err(|why| why.number()), other.map_err(|why| why.number()));
        if own != other {
            return Err(format!("that of {event} is {own:?} against {other:?}"));
        }
        Ok(())
    }

    /// Both have the same figures and runs.
    fn tell_the_same(&self) -> Result<(), String> {
        let Ledgers { ours, theirs } = self;
        let figures = [ours.highest(), ours.heard(), ours.missing(), ours.runs(), ours.floor(), ours.given_up()];
        let runs = theirs.runs().map(|runs| runs as u32);
        let others = [theirs.highest(), theirs.heard(), theirs.missing(), runs, theirs.floor(), theirs.given_up()];
        let (figures, others) = (figures.map(Result::ok), others.map(Result::ok));
        if figures != others {
            return Err(format!("the figures are {figures:?} against {others:?}"));
        }
        for place in 0..65 {
            let own = ours.run(place).ok().map(|run| (run.first, run.last));
            let other = theirs.run(place as usize).ok().map(|run| (run.first, run.last));
            if own != other {
                return Err(format!("the run at {place} is {own:?} against {other:?}"));
            }
        }
        Ok(())
    }
}

/// Both give the same answers, and the same figures and runs at the end. Gives the ledgers before the series.
fn agree(series: &Series) -> Result<Ledgers, String> {
    let mut before = Ledgers { ours: trivsome::Ledger::new(), theirs: Ledger::FRESH };
    series.before.iter().try_for_each(|event| before.happens(*event))?;
    let mut ledgers = before;
    series.events().try_for_each(|event| ledgers.happens(event))?;
    ledgers.tell_the_same()?;
    Ok(before)
}
