//! The ledger of one format, line and day: which frame numbers were heard, which runs below the highest are missing, and up to
//! which number, the floor, the missing ones were given up.
//!
//! The record is lent and its fields are open, so every call but clearing looks at the whole of it first: a record that no
//! series of arrivals and give-ups could have left answers 20.

pub const MOST_RUNS: usize = 64;
pub const GREATEST_NUMBER: u32 = 99_999_999;

/// A run of missing numbers, first and last included.
#[derive(Clone, Copy, Debug, Default, PartialEq, Eq)]
pub struct Run {
    pub first: u32,
    pub last: u32,
}

impl Run {
    /// How many numbers it has.
    pub fn length(&self) -> u32 {
        self.last - self.first + 1
    }
}

#[derive(Clone, Copy, Debug, PartialEq, Eq)]
pub struct Ledger {
    pub highest: u32,
    pub heard: u32,
    /// No number up to it is taken any more; 0 until a run was given up.
    pub floor: u32,
    /// How many numbers up to the floor were never heard.
    pub given_up: u32,
    pub count: usize,
    /// The missing runs above the floor, lowest first; zero behind the count.
    pub runs: [Run; MOST_RUNS],
}

#[derive(Clone, Copy, Debug, PartialEq, Eq)]
pub enum Arrival {
    New,
    Repeat,
}

#[derive(Clone, Copy, Debug, PartialEq, Eq)]
pub enum Refusal {
    /// No series of arrivals and give-ups from fresh leaves this record.
    Record = 20,
    /// The number is 0 or above 99,999,999.
    Number = 21,
    /// There would be more than 64 missing runs.
    Full = 22,
    /// There is no missing run at the place.
    Place = 23,
    /// There is no missing run to give up.
    NoRun = 24,
    /// The number is at or below the floor.
    Floor = 25,
}

impl Refusal {
    /// The number in the rules.
    pub fn number(self) -> u8 {
        self as u8
    }
}

impl Default for Ledger {
    fn default() -> Ledger {
        Ledger::FRESH
    }
}

impl Ledger {
    pub const FRESH: Ledger =
        Ledger { highest: 0, heard: 0, floor: 0, given_up: 0, count: 0, runs: [Run { first: 0, last: 0 }; MOST_RUNS] };

    /// Makes the ledger fresh, whatever it holds.
    pub fn clear(&mut self) {
        *self = Ledger::FRESH;
    }

    /// Records that a number has come.
    pub fn arrival(&mut self, number: u32) -> Result<Arrival, Refusal> {
        self.check()?;
        if number == 0 || number > GREATEST_NUMBER {
            return Err(Refusal::Number);
        }
        if number <= self.floor {
            return Err(Refusal::Floor);
        }
        if number > self.highest {
            let skipped = Run { first: self.highest + 1, last: number - 1 };
            if skipped.first <= skipped.last {
                self.insert(self.count, skipped)?;
            }
            self.highest = number;
        } else {
            let Some(place) = self.missing_runs().iter().position(|run| run.first <= number && number <= run.last)
            else {
                return Ok(Arrival::Repeat);
            };
            let run = self.runs[place];
            if run.first == run.last {
                self.remove(place);
            } else if number == run.first {
                self.runs[place].first += 1;
            } else if number == run.last {
                self.runs[place].last -= 1;
            } else {
                self.insert(place + 1, Run { first: number + 1, last: run.last })?;
                self.runs[place].last = number - 1;
            }
        }
        self.heard += 1;
        Ok(Arrival::New)
    }

    /// Gives the lowest missing run up, so that there is room for another, and tells which it was.
    pub fn give_up(&mut self) -> Result<Run, Refusal> {
        self.check()?;
        let lowest = *self.missing_runs().first().ok_or(Refusal::NoRun)?;
        self.remove(0);
        self.floor = lowest.last;
        self.given_up += lowest.length();
        Ok(lowest)
    }

    /// The highest number heard, or 0.
    pub fn highest(&self) -> Result<u32, Refusal> {
        self.check()?;
        Ok(self.highest)
    }

    /// How many different numbers were heard.
    pub fn heard(&self) -> Result<u32, Refusal> {
        self.check()?;
        Ok(self.heard)
    }

    /// How many numbers between the floor and the highest were not heard.
    pub fn missing(&self) -> Result<u32, Refusal> {
        self.check()?;
        Ok(self.highest - self.heard - self.given_up)
    }

    /// The last number that was given up, or 0.
    pub fn floor(&self) -> Result<u32, Refusal> {
        self.check()?;
        Ok(self.floor)
    }

    /// How many numbers were given up.
    pub fn given_up(&self) -> Result<u32, Refusal> {
        self.check()?;
        Ok(self.given_up)
    }

    /// How many missing runs there are.
    pub fn runs(&self) -> Result<usize, Refusal> {
        self.check()?;
        Ok(self.count)
    }

    /// The missing run at a place; the lowest has place 0.
    pub fn run(&self, place: usize) -> Result<Run, Refusal> {
        self.check()?;
        self.missing_runs().get(place).copied().ok_or(Refusal::Place)
    }

    /// The whole record: 20 unless arrivals and give-ups could have left it.
    fn check(&self) -> Result<(), Refusal> {
        if self.is_possible() {
            Ok(())
        } else {
            Err(Refusal::Record)
        }
    }

    fn is_possible(&self) -> bool {
        if self.highest > GREATEST_NUMBER || self.count > MOST_RUNS || !self.is_floor_possible() {
            return false;
        }
        let (used, unused) = self.runs.split_at(self.count);
        // Between two runs, and before the highest, at least one number was heard, and so was the one above a floor; below the
        // first run of a ledger without a floor none has to be.
        let mut least = if self.floor == 0 { 1 } else { self.floor + 2 };
        let mut missing: u64 = 0;
        for run in used {
            if run.first < least || run.last < run.first || run.last >= self.highest {
                return false;
            }
            least = run.last + 2;
            missing += u64::from(run.length());
        }
        let told = u64::from(self.heard) + missing + u64::from(self.given_up);
        told == u64::from(self.highest) && unused.iter().all(|run| *run == Run::default())
    }

    /// Nothing was given up, or else the floor and perhaps more of the numbers below it, and a higher one was heard.
    fn is_floor_possible(&self) -> bool {
        match self.floor {
            0 => self.given_up == 0,
            floor => floor < self.highest && (1..=floor).contains(&self.given_up),
        }
    }

    fn missing_runs(&self) -> &[Run] {
        &self.runs[..self.count]
    }

    fn insert(&mut self, place: usize, run: Run) -> Result<(), Refusal> {
        if self.count == MOST_RUNS {
            return Err(Refusal::Full);
        }
        self.runs.copy_within(place..self.count, place + 1);
        self.runs[place] = run;
        self.count += 1;
        Ok(())
    }

    fn remove(&mut self, place: usize) {
        self.runs.copy_within(place + 1..self.count, place);
        self.count -= 1;
        self.runs[self.count] = Run::default();
    }
}
