//! The ledger: arrivals and give-ups in many series with every figure after each, and records that may be damaged.

use std::collections::BTreeMap;
use std::fmt;

use second::ledger::{Arrival, Ledger, Refusal};
use second::random::Random;
use second::series::{events, Event};
use trivsome::{raw, LedgerRefusal};

use crate::damage::{self, damage};
use crate::record::{ledger_of, numbers_of, shown, Numbers, ENDS};
use crate::same::differ;

/// What occurred.
#[derive(Default)]
pub struct Arrivals {
    series: u64,
    arrivals: u64,
    new: u64,
    repeat: u64,
    /// Runs given up, and those for a number that had found no room and then was new.
    given_up: [u64; 2],
    /// Records with a floor that were asked for their figures.
    floors: u64,
    /// Calls refused with 20 to 25.
    refused: [u64; 6],
    /// Records with a fault, and those changed ones that arrivals and give-ups could have left after all.
    damaged: [u64; 2],
    /// Those with a fault in their floor, by its kind.
    faults: BTreeMap<&'static str, u64>,
}

/// What a call gives: a figure or two, or the number of a refusal.
type Told = Result<(u32, u32), u8>;

/// The proved ledger and the second program's.
#[derive(Clone, Copy)]
struct Ledgers {
    proved: trivsome::Ledger,
    second: Ledger,
}

impl Ledgers {
    fn of(numbers: &Numbers) -> Ledgers {
        Ledgers { proved: trivsome::Ledger::from_numbers(*numbers), second: ledger_of(numbers) }
    }
}

/// A question for a figure: its name, the call as it is, and both ledgers'.
type Question = (
    &'static str,
    fn(&[u32; ENDS], u32, u32) -> u64,
    fn(&trivsome::Ledger) -> Result<u32, LedgerRefusal>,
    fn(&Ledger) -> Result<u32, Refusal>,
);

const QUESTIONS: [Question; 6] = [
    ("the highest", raw::highest, trivsome::Ledger::highest, Ledger::highest),
    ("how many are heard", raw::heard, trivsome::Ledger::heard, Ledger::heard),
    ("how many are missing", raw::missing, trivsome::Ledger::missing, Ledger::missing),
    ("how many runs", raw::runs, trivsome::Ledger::runs, |second| second.runs().map(|runs| runs as u32)),
    ("the floor", raw::floor, trivsome::Ledger::floor, Ledger::floor),
    ("how many were given up", raw::given_up, trivsome::Ledger::given_up, Ledger::given_up),
];

impl Arrivals {
    /// Compares series of so many arrivals in all, and damaged records behind each.
    pub fn series(&mut self, random: &mut Random, many: usize) -> Result<(), String> {
        let mut left = many;
        while left > 0 {
            let length = match random.below(4) {
                0 => random.within(1..=10),
                1 => random.within(1..=3000),
                _ => random.within(1..=600),
            };
            let events = events(random, length.min(left));
            left -= length.min(left);
            self.series += 1;
            self.one(&events, random).map_err(|what| format!("series {}: {what}", self.series))?;
        }
        Ok(())
    }

    fn one(&mut self, events: &[Event], random: &mut Random) -> Result<(), String> {
        let mut ledgers = Ledgers { proved: trivsome::Ledger::new(), second: Ledger::FRESH };
        let mut happened = Vec::new();
        for (place, &event) in events.iter().enumerate() {
            let told = self.step(&mut ledgers, event, random).map_err(|what| {
                let before: Vec<_> = events[place.saturating_sub(20)..place].iter().map(Event::to_string).collect();
                format!("event {}, {event}: {what}\nthe ones before it: {}", place + 1, before.join(", "))
            })?;
            happened.push((event, told));
            if random.one_in(10) {
                let mut numbers = ledgers.proved.numbers();
                let name = damage(&mut numbers, random);
                let record = |what| format!("the record {:?}: {what}", shown(&numbers));
                let is_fault = self.damaged(&numbers, random).map_err(record)?;
                name.filter(|_| is_fault).into_iter().for_each(|name| *self.faults.entry(name).or_default() += 1);
            }
        }
        self.count(&happened);
        ledgers.proved.clear();
        ledgers.second.clear();
        self.record(&ledgers)
    }

    /// Adds the events of a series.
    fn count(&mut self, happened: &[(Event, Told)]) {
        for (event, told) in happened {
            match (event, told) {
                (Event::Arrival(_), Ok((0, _))) => self.repeat += 1,
                (Event::Arrival(_), Ok(_)) => self.new += 1,
                (Event::GiveUp, Ok(_)) => self.given_up[0] += 1,
                (_, Err(_)) => {}
            }
            self.arrivals += u64::from(*event != Event::GiveUp);
        }
        let makes_room = |three: &&[(Event, Told)]| match three {
            [(full, Err(22)), (Event::GiveUp, Ok(_)), (again, Ok((1, _)))] => full == again,
            _ => false,
        };
        self.given_up[1] += happened.windows(3).filter(makes_room).count() as u64;
    }

    /// One event, and everything that can be asked after it.
    fn step(&mut self, ledgers: &mut Ledgers, event: Event, random: &mut Random) -> Result<Told, String> {
        let told = self.event(ledgers, event)?;
        self.record(ledgers)?;
        self.figures(ledgers, random)?;
        Ok(told)
    }

    /// One event in both, and in a copy of the record; a call that records nothing leaves it.
    fn event(&mut self, ledgers: &mut Ledgers, event: Event) -> Result<Told, String> {
        let Ledgers { proved, second } = ledgers;
        let before = proved.numbers();
        let mut again = before;
        let [ends @ .., floor, given_up] = &mut again;
        let (outcome, own, other) = match event {
            Event::Arrival(number) => (
                raw::arrive(ends, *floor, *given_up, number),
                proved.arrive(number).map(|arrival| (u32::from(arrival == trivsome::Arrival::New), 0)),
                second.arrival(number).map(|arrival| (u32::from(arrival == Arrival::New), 0)),
            ),
            Event::GiveUp => (
                raw::give_up(ends, floor, given_up),
                proved.give_up().map(|run| (run.first, run.last)),
                second.give_up().map(|run| (run.first, run.last)),
            ),
        };
        let after = proved.numbers();
        if again != after {
            return Err(differ("the record of the same call", &shown(&again), &shown(&after)));
        }
        self.same(&format!("the answer to {event}"), outcome, own, other)?;
        let told = other.map_err(Refusal::number);
        if matches!(told, Err(_) | Ok((0, _))) && after != before {
            return Err(differ("a record that was to stay", &shown(&after), &shown(&before)));
        }
        Ok(told)
    }

    /// The record of a ledger that arrivals and give-ups left.
    fn record(&self, ledgers: &Ledgers) -> Result<(), String> {
        let (numbers, expected) = (ledgers.proved.numbers(), numbers_of(&ledgers.second));
        if numbers == expected {
            Ok(())
        } else {
            Err(differ("the record", &shown(&numbers), &shown(&expected)))
        }
    }

    /// All figures, every run, and some places at which there is none.
    fn figures(&mut self, ledgers: &Ledgers, random: &mut Random) -> Result<(), String> {
        let Ledgers { proved, second } = ledgers;
        let [ref ends @ .., floor, given_up] = proved.numbers();
        for (name, raw, own, other) in QUESTIONS {
            let figure = |figure: u32| (figure, 0);
            self.same(name, raw(ends, floor, given_up), own(proved).map(figure), other(second).map(figure))?;
        }
        self.floors += u64::from(second.floor().is_ok_and(|floor| floor > 0));
        let count = second.runs().unwrap_or(0) as u32;
        let beyond = [count, count + 1, 64, 128, 1 << 28, u32::MAX, random.any() as u32];
        for place in (0..count).chain([beyond[0], random.pick(&beyond)]) {
            let own = proved.run(place).map(|run| (run.first, run.last));
            let other = second.run(place as usize).map(|run| (run.first, run.last));
            self.same(&format!("the run at {place}"), raw::run(ends, floor, given_up, place), own, other)?;
        }
        Ok(())
    }

    /// Any record: every call of both, and that a refusal leaves it. Answers whether it has a fault.
    fn damaged(&mut self, numbers: &Numbers, random: &mut Random) -> Result<bool, String> {
        let ledgers = Ledgers::of(numbers);
        self.figures(&ledgers, random)?;
        let is_fault = ledgers.second.highest().is_err();
        self.damaged[usize::from(!is_fault)] += 1;
        let near = numbers[random.within(0..=ENDS + 1)].wrapping_add(random.below(3) as u32).wrapping_sub(1);
        let number = random.pick(&[0, 1, near, near, 99_999_999, 100_000_000]);
        for event in [Event::Arrival(number), Event::GiveUp] {
            let mut after = ledgers;
            let step = if is_fault { self.event(&mut after, event) } else { self.step(&mut after, event, random) };
            step.map_err(|what| format!("{event}: {what}"))?.ok();
        }
        let mut proved = ledgers.proved;
        proved.clear();
        self.record(&Ledgers { proved, second: Ledger::FRESH })?;
        Ok(is_fault)
    }

    /// Both tell the same, by the outcome and by its names.
    fn same(
        &mut self,
        what: &str,
        outcome: u64,
        proved: Result<(u32, u32), LedgerRefusal>,
        second: Result<(u32, u32), Refusal>,
    ) -> Result<(), String> {
        let (proved, second): (Told, Told) = (proved.map_err(LedgerRefusal::number), second.map_err(Refusal::number));
        if proved != second {
            return Err(format!("{what} differs\n  proved: {proved:?}\n  second: {second:?}"));
        }
        let expected = match second {
            Ok((one, other)) => u64::from(one) << 8 | u64::from(other) << 36,
            Err(number) => u64::from(number),
        };
        if outcome != expected {
            return Err(format!("the outcome of {what} is {outcome} and not {expected}"));
        }
        if let Err(number) = second {
            self.refused[usize::from(number - 20)] += 1;
        }
        Ok(())
    }

    /// What did not occur.
    pub fn missed(&self) -> Option<String> {
        let refusal = self.refused.iter().zip(20..).find(|(times, _)| **times == 0);
        let refusal = refusal.map(|(_, answer)| format!("answer {answer}"));
        let fault = damage::names().find(|name| !self.faults.contains_key(name)).map(str::to_string);
        let counts = [
            ("a new number", self.new),
            ("a repeat", self.repeat),
            ("a run given up", self.given_up[0]),
            ("a number that is new once a run is given up for it", self.given_up[1]),
            ("a floor", self.floors),
            ("a record with a fault", self.damaged[0]),
            ("a changed record without one", self.damaged[1]),
        ];
        let other = counts.iter().find(|(_, times)| *times == 0).map(|(name, _)| name.to_string());
        refusal.or(fault).or(other)
    }
}

impl fmt::Display for Arrivals {
    fn fmt(&self, f: &mut fmt::Formatter) -> fmt::Result {
        write!(f, "{} arrivals in {} series; new:{} repeat:{}", self.arrivals, self.series, self.new, self.repeat)?;
        for (times, answer) in self.refused.iter().zip(20..) {
            write!(f, " {answer}:{times}")?;
        }
        let ([runs, room], [faults, none]) = (self.given_up, self.damaged);
        write!(
            f,
            "; runs given up:{runs} for a number that was new then:{room} records with a floor:{}; ",
            self.floors
        )?;
        write!(f, "records with a fault:{faults} ({} kinds in the floor) changed without:{none}", self.faults.len())
    }
}
