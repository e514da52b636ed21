//! The ledger beside a plain model of it, after every event of long series; and the records that it takes, beside all those that
//! some series leaves.

use second::ledger::{Arrival, Ledger, Run};

const MOST_RUNS: usize = 64;

/// For each number whether it was recorded, number 0 being none; and the floor.
#[derive(Clone)]
struct Model {
    recorded: Vec<bool>,
    floor: usize,
}

impl Model {
    /// For numbers up to a greatest one.
    fn new(greatest: usize) -> Model {
        Model { recorded: vec![false; greatest + 1], floor: 0 }
    }

    fn highest(&self) -> usize {
        self.recorded.iter().rposition(|&is| is).unwrap_or(0)
    }

    fn heard(&self) -> usize {
        self.recorded.iter().filter(|is| **is).count()
    }

    fn given_up(&self) -> usize {
        (1..=self.floor).filter(|&number| !self.recorded[number]).count()
    }

    /// The longest runs between the floor and the highest that were not recorded.
    fn runs(&self) -> Vec<(usize, usize)> {
        let mut runs: Vec<(usize, usize)> = Vec::new();
        for number in self.floor + 1..self.highest() {
            match runs.last_mut() {
                _ if self.recorded[number] => {}
                Some((_, last)) if *last + 1 == number => *last = number,
                _ => runs.push((number, number)),
            }
        }
        runs
    }

    fn arrival(&mut self, number: usize) -> Result<Arrival, u8> {
        if number == 0 {
            return Err(21);
        }
        if number <= self.floor {
            return Err(25);
        }
        if self.recorded[number] {
            return Ok(Arrival::Repeat);
        }
        self.recorded[number] = true;
        if self.runs().len() > MOST_RUNS {
            self.recorded[number] = false;
            return Err(22);
        }
        Ok(Arrival::New)
    }

    fn give_up(&mut self) -> Result<(usize, usize), u8> {
        let lowest = *self.runs().first().ok_or(24)?;
        self.floor = lowest.1;
        Ok(lowest)
    }
}

fn plain(run: Run) -> (usize, usize) {
    (run.first as usize, run.last as usize)
}

/// An arrival at both, or with no number a give-up.
fn happens(ledger: &mut Ledger, model: &mut Model, number: Option<usize>) {
    let before = *ledger;
    let is_refused = match number {
        Some(number) => {
            let answer = ledger.arrival(number as u32).map_err(|why| why.number());
            assert_eq!(answer, model.arrival(number), "the arrival of {number}");
            answer != Ok(Arrival::New)
        }
        None => {
            let answer = ledger.give_up().map(plain).map_err(|why| why.number());
            assert_eq!(answer, model.give_up());
            answer.is_err()
        }
    };
    assert!(!is_refused || *ledger == before);
    agree(ledger, model);
}

/// Every question has the same answer.
fn agree(ledger: &Ledger, model: &Model) {
    let runs = model.runs();
    let missing: usize = runs.iter().map(|(first, last)| last - first + 1).sum();
    let figures = [model.highest(), model.heard(), missing, model.floor, model.given_up()];
    let asked = [ledger.highest(), ledger.heard(), ledger.missing(), ledger.floor(), ledger.given_up()];
    assert_eq!(asked, figures.map(|figure| Ok(figure as u32)));
    assert_eq!(model.heard() + missing + model.given_up(), model.highest());
    assert_eq!(ledger.runs(), Ok(runs.len()));
    for (place, run) in runs.iter().enumerate() {
        assert_eq!(ledger.run(place).map(plain), Ok(*run));
    }
    assert_eq!(ledger.run(runs.len()).map_err(|why| why.number()), Err(23));
    // No record kept besides: nothing behind the count.
    assert!(ledger.runs[ledger.count..].iter().all(|run| *run == Run::default()));
}

#[test]
fn long_series() {
    let mut state: u32 = 7;
    let mut draw = |below: usize| {
        state = state.wrapping_mul(1_103_515_245).wrapping_add(12345);
        (state >> 8) as usize % below
    };
    // How often each answer came: new, repeat, 21, 22, 25; a run given up, 24; given up for room, and then new.
    let mut seen = [0; 8];
    for greatest in [10, 100, 150, 300, 3000] {
        for rarely in [usize::MAX, 200, 40, 5] {
            let (mut ledger, mut model) = (Ledger::FRESH, Model::new(greatest));
            for _ in 0..2000 {
                if draw(rarely) == 0 {
                    seen[if model.runs().is_empty() { 6 } else { 5 }] += 1;
                    happens(&mut ledger, &mut model, None);
                }
                let number = draw(greatest + 1);
                let answer = model.clone().arrival(number);
                seen[match answer {
                    Ok(Arrival::New) => 0,
                    Ok(Arrival::Repeat) => 1,
                    Err(21) => 2,
                    Err(22) => 3,
                    Err(_) => 4,
                }] += 1;
                happens(&mut ledger, &mut model, Some(number));
                if answer == Err(22) && rarely < 200 {
                    happens(&mut ledger, &mut model, None);
                    let heard = model.heard();
                    happens(&mut ledger, &mut model, Some(number));
                    seen[7] += model.heard() - heard;
                }
            }
        }
    }
    assert!(seen.iter().all(|&times| times > 20), "{seen:?}");
}

/// The greatest number of the small records, which have two runs at most.
const SMALL: u32 = 5;

/// All records that arrivals of small numbers and give-ups leave.
fn reached() -> Vec<Ledger> {
    let mut reached = vec![(Ledger::FRESH, Model::new(SMALL as usize))];
    let mut at = 0;
    while at < reached.len() {
        for number in (1..=SMALL as usize).map(Some).chain([None]) {
            let (mut ledger, mut model) = reached[at].clone();
            happens(&mut ledger, &mut model, number);
            if !reached.iter().any(|(other, _)| *other == ledger) {
                reached.push((ledger, model));
            }
        }
        at += 1;
    }
    reached.into_iter().map(|(ledger, _)| ledger).collect()
}

/// All lists of four numbers below a limit.
fn fours(limit: u32) -> impl Iterator<Item = [u32; 4]> {
    (0..limit.pow(4)).map(move |all| [1, limit, limit.pow(2), limit.pow(3)].map(|place| all / place % limit))
}

#[test]
fn a_record_is_taken_exactly_if_it_is_reached() {
    let reached = reached();
    let mut taken = Vec::new();
    for [highest, heard, floor, given_up] in fours(SMALL + 1) {
        for [first, last, other_first, other_last] in fours(SMALL) {
            let mut ledger = Ledger { highest, heard, floor, given_up, ..Ledger::FRESH };
            ledger.runs[0] = Run { first, last };
            ledger.runs[1] = Run { first: other_first, last: other_last };
            for count in 0..=3 {
                ledger.count = count;
                if ledger.highest().is_ok() {
                    taken.push(ledger);
                }
            }
        }
    }
    assert!(taken.iter().all(|ledger| reached.contains(ledger)));
    assert_eq!(taken.len(), reached.len());
}
