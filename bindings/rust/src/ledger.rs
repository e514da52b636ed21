//! The ledger of one format on one line for one day: which numbers came, which are missing, and which were given up.

use std::fmt;

use crate::raw;

/// A ledger's record: from the top down the last number of each unbroken stretch, settled and missing by turns, then zeros; the
/// floor; and how many numbers were given up. Settled are the numbers that were heard, and all up to the floor.
#[derive(Clone, Copy, Debug, PartialEq, Eq, Hash)]
#[repr(C)]
pub struct Ledger {
    ends: [u32; 129],
    floor: u32,
    given_up: u32,
}

/// What an arrival that is not refused is.
#[derive(Clone, Copy, Debug, PartialEq, Eq, Hash)]
pub enum Arrival {
    /// It had not come before.
    New,
    /// It had.
    Repeat,
}

/// A run of missing numbers, first and last included.
#[derive(Clone, Copy, Debug, PartialEq, Eq, Hash)]
pub struct Run {
    /// Its lowest number.
    pub first: u32,
    /// Its highest.
    pub last: u32,
}

/// Why a call is refused. The record is as it was.
#[derive(Clone, Copy, Debug, PartialEq, Eq, Hash)]
pub enum LedgerRefusal {
    /// 20: no series of arrivals and give-ups from a fresh ledger leaves this record.
    Record,
    /// 21: the number is 0 or above 99,999,999.
    Number,
    /// 22: there would be more than 64 missing runs.
    Full,
    /// 23: there is no missing run at the place.
    Place,
    /// 24: there is no missing run to give up.
    NoRun,
    /// 25: the number is at or below the floor.
    Floor,
}

impl LedgerRefusal {
    /// The number in the rules.
    #[inline]
    pub fn number(self) -> u8 {
        match self {
            LedgerRefusal::Record => 20,
            LedgerRefusal::Number => 21,
            LedgerRefusal::Full => 22,
            LedgerRefusal::Place => 23,
            LedgerRefusal::NoRun => 24,
            LedgerRefusal::Floor => 25,
        }
    }
}

impl fmt::Display for LedgerRefusal {
    fn fmt(&self, f: &mut fmt::Formatter) -> fmt::Result {
        f.write_str(match self {
            LedgerRefusal::Record => "20: no arrivals and give-ups leave this record",
            LedgerRefusal::Number => "21: the number is 0 or above 99,999,999",
            LedgerRefusal::Full => "22: there would be more than 64 missing runs",
            LedgerRefusal::Place => "23: there is no missing run at the place",
            LedgerRefusal::NoRun => "24: there is no missing run to give up",
            LedgerRefusal::Floor => "25: the number is at or below the floor",
        })
    }
}

impl std::error::Error for LedgerRefusal {}

impl Default for Ledger {
    /// The fresh ledger.
    #[inline]
    fn default() -> Ledger {
        Ledger { ends: [0; 129], floor: 0, given_up: 0 }
    }
}

impl Ledger {
    /// The fresh ledger.
    #[inline]
    pub fn new() -> Ledger {
        Ledger::default()
    }

    /// A record that was kept somewhere: the ends, the floor, and how many numbers were given up. It may be any: one that no
    /// arrivals and give-ups leave answers 20. One that the version before has kept, of 129 numbers, has two zeros behind it.
    #[inline]
    pub fn from_numbers(numbers: [u32; 131]) -> Ledger {
        let [ends @ .., floor, given_up] = numbers;
        Ledger { ends, floor, given_up }
    }

    /// The record, to be kept somewhere: the ends, the floor, and how many numbers were given up.
    #[inline]
    pub fn numbers(&self) -> [u32; 131] {
        let mut numbers = [0; 131];
        let [ends @ .., floor, given_up] = &mut numbers;
        (*ends, *floor, *given_up) = (self.ends, self.floor, self.given_up);
        numbers
    }

    /// Makes the ledger fresh, whatever it holds.
    #[inline]
    pub fn clear(&mut self) {
        raw::clear(&mut self.ends, &mut self.floor, &mut self.given_up);
    }

    /// Records that a number has come.
    #[inline]
    pub fn arrive(&mut self, n: u32) -> Result<Arrival, LedgerRefusal> {
        match above(raw::arrive(&mut self.ends, self.floor, self.given_up, n))? {
            0 => Ok(Arrival::Repeat),
            _ => Ok(Arrival::New),
        }
    }

    /// Gives the lowest missing run up, and tells which it was. Its last number becomes the floor: numbers up to there are
    /// refused from now on, and are missing no longer. There is room for another run then:
    ///
    /// ```
    /// # use trivsome::{Arrival, Ledger, LedgerRefusal};
    /// # let mut ledger = Ledger::new();
    /// # (1..=64).for_each(|half| assert_eq!(ledger.arrive(2 * half), Ok(Arrival::New)));
    /// # let n = 130;
    /// while ledger.arrive(n) == Err(LedgerRefusal::Full) {
    ///     let run = ledger.give_up()?;
    ///     println!("{} to {} will not be waited for", run.first, run.last);
    /// }
    /// # assert_eq!((ledger.highest(), ledger.floor()), (Ok(130), Ok(1)));
    /// # Ok::<(), LedgerRefusal>(())
    /// ```
    #[inline]
    pub fn give_up(&mut self) -> Result<Run, LedgerRefusal> {
        run_above(raw::give_up(&mut self.ends, &mut self.floor, &mut self.given_up))
    }

    /// The highest number that came, or 0.
    #[inline]
    pub fn highest(&self) -> Result<u32, LedgerRefusal> {
        self.figure(raw::highest)
    }

    /// How many different numbers came and were not refused, below the floor too.
    #[inline]
    pub fn heard(&self) -> Result<u32, LedgerRefusal> {
        self.figure(raw::heard)
    }

    /// How many numbers between the floor and the highest are missing.
    #[inline]
    pub fn missing(&self) -> Result<u32, LedgerRefusal> {
        self.figure(raw::missing)
    }

    /// How many missing runs there are above the floor.
    #[inline]
    pub fn runs(&self) -> Result<u32, LedgerRefusal> {
        self.figure(raw::runs)
    }

    /// The last number that was given up, or 0.
    #[inline]
    pub fn floor(&self) -> Result<u32, LedgerRefusal> {
        self.figure(raw::floor)
    }

    /// How many numbers were given up: those up to the floor that were still missing.
    #[inline]
    pub fn given_up(&self) -> Result<u32, LedgerRefusal> {
        self.figure(raw::given_up)
    }

    /// The missing run at a place; the lowest above the floor has place 0.
    #[inline]
    pub fn run(&self, place: u32) -> Result<Run, LedgerRefusal> {
        run_above(raw::run(&self.ends, self.floor, self.given_up, place))
    }

    /// What a call tells of the record.
    #[inline]
    fn figure(&self, call: fn(&[u32; 129], u32, u32) -> u64) -> Result<u32, LedgerRefusal> {
        above(call(&self.ends, self.floor, self.given_up)).map(|figure| figure as u32)
    }
}

/// What stands above the answer, if that is 0.
#[inline]
fn above(outcome: u64) -> Result<u64, LedgerRefusal> {
    match outcome as u8 {
        0 => Ok(outcome >> 8),
        20 => Err(LedgerRefusal::Record),
        21 => Err(LedgerRefusal::Number),
        22 => Err(LedgerRefusal::Full),
        23 => Err(LedgerRefusal::Place),
        24 => Err(LedgerRefusal::NoRun),
        _ => Err(LedgerRefusal::Floor),
    }
}

/// The run that stands above the answer, if that is 0.
#[inline]
fn run_above(outcome: u64) -> Result<Run, LedgerRefusal> {
    let both = above(outcome)?;
    Ok(Run { first: (both & 0xFFF_FFFF) as u32, last: (both >> 28) as u32 })
}
