//! The capture: payloads appended in many series, with the power cut after any number of stores, on captures fresh, torn and
//! damaged, and lent memory of other sizes.

use std::collections::{BTreeMap, BTreeSet};
use std::fmt;

use second::capture::{self, Refusal, BLOCK, BYTES, MOST, PLACES};
use second::random::Random;
use trivsome::raw;

use crate::bad_blocks::{self, spoil, tear};
use crate::capture_calls::{Calls, Sides, SIZES};

/// Lengths of payloads at the edges.
const LENGTHS: [usize; 7] = [0, 1, 2, 503, 504, 505, 600];

/// Numbers of stores at the edges of a block's parts, and beyond them all.
const STORES: [usize; 14] = [0, 1, 4, 506, 507, 508, 509, 510, 511, 512, 513, 1024, 1 << 32, usize::MAX];

/// What occurred.
#[derive(Default)]
pub struct Captures {
    series: u64,
    appends: u64,
    calls: Calls,
    /// How long the payloads were that were appended or refused.
    lengths: BTreeSet<usize>,
    /// After how many stores an append was cut.
    cuts: BTreeSet<usize>,
    /// Cuts on what an earlier cut left, and appends that went on there.
    again: u64,
    onward: u64,
    /// Appends that were stopped after each of their stores.
    stopped: u64,
    /// Bad blocks by the fault, and changed captures without one.
    faults: BTreeMap<&'static str, u64>,
    harmless: u64,
    /// Lent memory of other sizes, by the size.
    sizes: BTreeMap<usize, u64>,
}

/// A capture on both sides, and the payloads of its finished blocks.
struct Kept {
    sides: Sides,
    payloads: Vec<Vec<u8>>,
    /// The last append was cut.
    is_cut: bool,
}

impl Captures {
    /// Compares series of so many appends in all.
    pub fn series(&mut self, random: &mut Random, many: usize) -> Result<(), String> {
        let mut left = many;
        while left > 0 {
            let length = match random.below(4) {
                0 => random.within(1..=10),
                1 => random.within(150..=300),
                _ => random.within(1..=80),
            };
            self.series += 1;
            self.one(length.min(left), random).map_err(|what| format!("capture {}: {what}", self.series))?;
            left -= length.min(left);
        }
        Ok(())
    }

    /// One series, and the capture cleared at its end.
    fn one(&mut self, length: usize, random: &mut Random) -> Result<(), String> {
        let mut kept = begun(random);
        self.every(&kept)?;
        if self.stopped == 0 || random.one_in(4) {
            self.stops(&kept, random)?;
        }
        for event in 1..=length {
            self.append(&mut kept, random).map_err(|what| format!("append {event}: {what}"))?;
            let behind = |what: String| format!("behind append {event}, {what}");
            if random.one_in(4) {
                self.spoilt(&kept, random).map_err(behind)?;
            }
            if random.one_in(20) {
                self.other_size(&kept, random).map_err(behind)?;
            }
        }
        self.every(&kept)?;
        self.calls.clear(&mut kept.sides)?.ok();
        self.calls.found(kept.sides.proved(), &[], &[0, 1, PLACES])
    }

    /// One append, cut or not, and what is found after it.
    fn append(&mut self, kept: &mut Kept, random: &mut Random) -> Result<(), String> {
        let payload = any_payload(random);
        self.appends += 1;
        self.lengths.insert(payload.len());
        if random.one_in(3) {
            let stores = if random.one_in(3) { random.pick(&STORES) } else { random.within(0..=BLOCK) };
            self.cut(kept, &payload, stores).map_err(|what| format!("cut after {stores} stores: {what}"))?;
        } else {
            let told = self.calls.append(&mut kept.sides, &payload)?;
            self.finish(kept, payload, told.is_ok());
        }
        let some = [kept.payloads.len(), kept.payloads.len() + 1, random.within(0..=PLACES + 1), random.any() as usize];
        self.found(kept, &some)?;
        if random.one_in(40) {
            self.every(kept)?;
        }
        Ok(())
    }

    /// An append that is cut. What is found is what was finished before, and the next append takes the same place.
    fn cut(&mut self, kept: &mut Kept, payload: &[u8], stores: usize) -> Result<(), String> {
        let told = self.calls.cut(&mut kept.sides, payload, stores)?;
        if stores >= BLOCK || told.is_err() {
            self.finish(kept, payload.to_vec(), told.is_ok());
            return Ok(());
        }
        self.cuts.insert(stores);
        self.again += u64::from(kept.is_cut);
        kept.is_cut = true;
        let next = self.calls.append(&mut kept.sides.clone(), payload)?;
        if next != told {
            return Err(format!("the append told {told:?}, and the next one {next:?}"));
        }
        Ok(())
    }

    /// What an append left that was not cut.
    fn finish(&mut self, kept: &mut Kept, payload: Vec<u8>, done: bool) {
        if done {
            kept.payloads.push(payload);
            self.onward += u64::from(kept.is_cut);
            kept.is_cut = false;
        }
    }

    /// Both readers find the same in the memory of either side: the payloads at these places, and how many there are.
    fn found(&mut self, kept: &Kept, places: &[usize]) -> Result<(), String> {
        let Kept { sides, payloads, .. } = kept;
        self.calls
            .found(sides.proved(), payloads, places)
            .map_err(|what| format!("in the library's memory, {what}"))?;
        self.calls
            .found(&sides.second, payloads, places)
            .map_err(|what| format!("in the second program's memory, {what}"))
    }

    /// The same at every place.
    fn every(&mut self, kept: &Kept) -> Result<(), String> {
        let places: Vec<usize> = (0..=PLACES + 1).chain([256, 257, 1 << 32, usize::MAX]).collect();
        self.found(kept, &places)
    }

    /// One append stopped after each of its stores, and what the second program's reader finds then; and that a next append of its
    /// own leaves what one leaves that was not stopped.
    fn stops(&mut self, kept: &Kept, random: &mut Random) -> Result<(), String> {
        let (before, count) = (kept.sides.proved(), kept.payloads.len());
        let payload = good_payload(random);
        let mut whole = before.to_vec();
        if capture::append(&mut whole, &payload).is_err() {
            return Ok(());
        }
        self.stopped += 1;
        let mut kept = kept.payloads.clone();
        for stores in 0..=BLOCK {
            let mut memory = before.to_vec();
            let outcome = raw::capture_append_cut(&mut memory, &payload, stores);
            let within = |what: String| format!("an append stopped after {stores} of its stores: {what}");
            if outcome != (count as u64 + 1) << 8 {
                return Err(within(format!("its outcome is {outcome:#X}")));
            }
            if stores == BLOCK {
                kept.push(payload.clone());
            }
            let found = capture::finished(&memory);
            if found != Ok(kept.len()) {
                return Err(within(format!("{found:?} blocks are found and not {}", kept.len())));
            }
            let places = [count, count + 1, random.within(1..=count.max(1))];
            for place in if stores % 64 == 0 { (0..=PLACES + 1).collect() } else { places.to_vec() } {
                let expected = place.checked_sub(1).and_then(|at| kept.get(at)).map_or(&[][..], |kept| kept);
                if capture::payload(&memory, place) != Ok(expected) {
                    return Err(within(format!("another payload is found at place {place}")));
                }
            }
            if stores < BLOCK && (capture::append(&mut memory, &payload) != Ok(count + 1) || memory != whole) {
                return Err(within("the next append does not leave what it would have left".into()));
            }
            self.cuts.insert(stores);
        }
        Ok(())
    }

    /// The capture with faults in it, and every call on it.
    fn spoilt(&mut self, kept: &Kept, random: &mut Random) -> Result<(), String> {
        let mut memory = kept.sides.second.clone();
        let count = kept.payloads.len();
        let names: Vec<_> = (0..random.pick(&[1, 1, 2])).filter_map(|_| spoil(&mut memory, count, random)).collect();
        let is_bad = matches!(capture::finished(&memory), Err(Refusal::Bad(_)));
        match names[..] {
            [name] if is_bad => *self.faults.entry(name).or_default() += 1,
            _ => self.harmless += u64::from(!is_bad),
        }
        let within = |what: String| format!("with {}: {what}", names.join(" and "));
        let mut sides = Sides::of(&memory);
        self.calls.finished(&memory).map_err(within)?.ok();
        for place in [0, 1, count, count + 1, random.within(1..=PLACES), PLACES + 1, usize::MAX] {
            self.calls.payload(&memory, place).map_err(within)?;
        }
        for _ in 0..3 {
            let payload = any_payload(random);
            self.calls.append(&mut sides, &payload).map_err(within)?.ok();
            self.calls.cut(&mut sides, &payload, random.pick(&STORES)).map_err(within)?.ok();
        }
        self.calls.clear(&mut sides).map_err(within).map(|_| ())
    }

    /// Lent memory of another size: every call refuses it, and leaves it.
    fn other_size(&mut self, kept: &Kept, random: &mut Random) -> Result<(), String> {
        let size = random.pick(&SIZES);
        *self.sizes.entry(size).or_default() += 1;
        let mut memory = kept.sides.second.clone();
        memory.resize(size, random.pick(&[0, 1, 255]));
        let mut sides = Sides::of(&memory);
        let payload = any_payload(random);
        let refused = [
            self.calls.append(&mut sides, &payload)?,
            self.calls.cut(&mut sides, &payload, random.pick(&STORES))?,
            self.calls.finished(&memory)?,
            self.calls.clear(&mut sides)?,
        ];
        self.calls.payload(&memory, random.within(0..=PLACES + 1))?;
        match refused == [Err(Refusal::Memory); 4] {
            true => Ok(()),
            false => Err(format!("memory of {size} bytes is answered {refused:?}")),
        }
    }

    /// What did not occur.
    pub fn missed(&self) -> Option<String> {
        let fault = bad_blocks::names()
            .find(|name| !self.faults.contains_key(name))
            .map(|name| format!("a capture with {name}"));
        let length = LENGTHS.iter().find(|length| !self.lengths.contains(length));
        let length = length.map(|length| format!("a payload of {length} bytes"));
        let cut =
            (0..=BLOCK).find(|stores| !self.cuts.contains(stores)).map(|stores| format!("a cut after {stores} stores"));
        let size =
            SIZES.iter().find(|size| !self.sizes.contains_key(size)).map(|size| format!("a capture of {size} bytes"));
        let counts = [
            ("a cut on what a cut left", self.again),
            ("an append on what a cut left", self.onward),
            ("an append stopped after every store", self.stopped),
            ("a changed capture without a bad block", self.harmless),
        ];
        let other = counts.iter().find(|(_, times)| *times == 0).map(|(name, _)| name.to_string());
        self.calls.missed().or(fault).or(length).or(cut).or(size).or(other)
    }
}

impl fmt::Display for Captures {
    fn fmt(&self, f: &mut fmt::Formatter) -> fmt::Result {
        write!(f, "{} appends in {} series; {}; ", self.appends, self.series, self.calls)?;
        write!(f, "cut after {} of 513 numbers of stores, on what a cut left:{} ", self.cuts.len(), self.again)?;
        write!(f, "appended there:{}; stopped after every store:{}; ", self.onward, self.stopped)?;
        let (bad, kinds) = (self.faults.values().sum::<u64>(), self.faults.len());
        write!(
            f,
            "bad blocks:{bad} of {kinds} kinds, changed without:{}; other sizes:{}",
            self.harmless,
            self.sizes.len()
        )
    }
}

/// A capture to begin with: fresh, or with some blocks, and behind them zeros or any bytes.
fn begun(random: &mut Random) -> Kept {
    let places = match random.below(4) {
        0 | 1 => 0,
        2 => random.within(1..=PLACES),
        _ => random.within(PLACES - 8..=PLACES),
    };
    let mut memory = vec![0; BYTES];
    let payloads: Vec<Vec<u8>> = (0..places).map(|_| good_payload(random)).collect();
    for (place, payload) in payloads.iter().enumerate() {
        assert_eq!(capture::append(&mut memory, payload), Ok(place + 1));
    }
    if random.one_in(2) {
        tear(&mut memory, places, random);
    }
    Kept { sides: Sides::of(&memory), payloads, is_cut: false }
}

/// A payload of any length, often at an edge.
fn any_payload(random: &mut Random) -> Vec<u8> {
    let length = if random.one_in(3) { random.pick(&LENGTHS) } else { random.within(1..=MOST) };
    bytes(length, random)
}

/// One that can be appended.
fn good_payload(random: &mut Random) -> Vec<u8> {
    let length = if random.one_in(3) { random.pick(&LENGTHS).clamp(1, MOST) } else { random.within(1..=MOST) };
    bytes(length, random)
}

/// Any bytes, sometimes all the same.
fn bytes(length: usize, random: &mut Random) -> Vec<u8> {
    match random.below(8) {
        0 => vec![random.pick(&[0, 1, 254, 255]); length],
        _ => (0..length).map(|_| random.byte()).collect(),
    }
}
