//! Each call on a capture, on both sides: the answer with its figures, and all memory afterwards.

use std::collections::BTreeMap;
use std::fmt;

use second::capture::{self, Refusal, BLOCK, BYTES, PLACES};
use trivsome::{raw, BadBlock, Capture, NotAppended};

use crate::same::differ;

/// What each call can answer.
const ANSWERS: [(&str, &[u8]); 5] = [
    ("append", &[0, 34, 31, 33, 32]),
    ("cut", &[0, 34, 31, 33, 32]),
    ("finished", &[0, 34, 33]),
    ("payload", &[0, 34, 33]),
    ("clear", &[0, 34]),
];

/// What else can happen: a number that goes before others, and what a question finds.
const OTHERS: [&str; 7] = [
    "34 where it is 31 too",
    "31 where it is 33 too",
    "31 where it is 32 too",
    "33 where all blocks have a number",
    "payloads",
    "unfinished places",
    "places that there are not",
];

/// How many bytes on either side of lent memory have to stay, and what they are.
const GUARD: usize = 64;
const GUARDED: u8 = 0xA5;

/// A capture on both sides, of any size. They are the same but for what cut appends leave in the first unfinished block.
#[derive(Clone)]
pub struct Sides {
    /// The library's, with the guards.
    lent: Vec<u8>,
    pub second: Vec<u8>,
}

/// What a call gives: a place, or how many blocks there are.
type Told = Result<usize, Refusal>;

impl Sides {
    /// The same bytes on both.
    pub fn of(memory: &[u8]) -> Sides {
        let guard = [GUARDED; GUARD];
        Sides { lent: [&guard, memory, &guard].concat(), second: memory.to_vec() }
    }

    pub fn proved(&self) -> &[u8] {
        &self.lent[GUARD..][..self.second.len()]
    }

    fn lent(&mut self) -> &mut [u8] {
        &mut self.lent[GUARD..][..self.second.len()]
    }

    /// The library's, if there are as many bytes as a capture has.
    fn named(&self) -> Option<Capture> {
        Some(Capture::from_bytes(self.proved().try_into().ok()?))
    }

    /// Nothing beside the lent memory has changed.
    fn guards(&self) -> Result<(), String> {
        let inside = GUARD..self.lent.len() - GUARD;
        match self.lent.iter().enumerate().position(|(at, byte)| !inside.contains(&at) && *byte != GUARDED) {
            None => Ok(()),
            Some(at) => Err(format!("the byte {} from the lent memory's first one changed", at as i64 - GUARD as i64)),
        }
    }

    /// Both are as they were.
    fn stays(&self, before: &Sides) -> Result<(), String> {
        same("the library's memory that was to stay", self.proved(), before.proved())?;
        same("the second program's memory that was to stay", &self.second, &before.second)
    }
}

/// That two memories have the same bytes.
fn same(what: &str, one: &[u8], other: &[u8]) -> Result<(), String> {
    match one.iter().zip(other).position(|(one, other)| one != other) {
        None if one.len() == other.len() => Ok(()),
        None => Err(differ(&format!("the size of {what}"), &one.len(), &other.len())),
        Some(at) => {
            Err(differ(&format!("{what}: byte {} of block {}", at % BLOCK, at / BLOCK + 1), &one[at], &other[at]))
        }
    }
}

/// The outcome that goes with what the second program gives.
fn outcome(told: Told) -> u64 {
    match told {
        Ok(figure) => (figure as u64) << 8,
        Err(why) => u64::from(why.number()) | (why.place().unwrap_or(0) as u64) << 8,
    }
}

/// The answer's number.
fn number(told: Told) -> u8 {
    told.map_or_else(Refusal::number, |_| 0)
}

/// A refusal of an append by its name. There is none for 34: a capture that has names has the right size.
fn not_appended(why: Refusal) -> Option<NotAppended> {
    match why {
        Refusal::Payload => Some(NotAppended::Payload),
        Refusal::Bad(place) => Some(NotAppended::Bad(BadBlock { place })),
        Refusal::Full => Some(NotAppended::Full),
        Refusal::Memory => None,
    }
}

/// What occurred.
#[derive(Default)]
pub struct Calls {
    /// By the call and its answer.
    answers: BTreeMap<(&'static str, u8), u64>,
    others: BTreeMap<&'static str, u64>,
}

impl Calls {
    /// An append: the answer, and all memory afterwards.
    pub fn append(&mut self, sides: &mut Sides, payload: &[u8]) -> Result<Told, String> {
        let before = sides.clone();
        let own = raw::capture_append(sides.lent(), payload);
        let told = capture::append(&mut sides.second, payload);
        self.answered("append", own, outcome(told), number(told))?;
        sides.guards()?;
        self.ordered(&before, payload, told);
        Self::named(&before, sides, told, |capture| capture.append(payload))?;
        match told {
            Ok(_) => same("a capture appended to", sides.proved(), &sides.second)?,
            Err(_) => sides.stays(&before)?,
        }
        Ok(told)
    }

    /// An append that is cut: the answer, and what there is to say of memory. The two need not store in the same order.
    pub fn cut(&mut self, sides: &mut Sides, payload: &[u8], stores: usize) -> Result<Told, String> {
        let before = sides.clone();
        let list = capture::stores(&before.second, payload);
        let own = raw::capture_append_cut(sides.lent(), payload, stores);
        let told = list.as_ref().map(|list| list[0].0 / BLOCK + 1).map_err(|why| *why);
        self.answered("cut", own, outcome(told), number(told))?;
        sides.guards()?;
        self.ordered(&before, payload, told);
        Self::named(&before, sides, told, |capture| capture.append_cut(payload, stores))?;
        let Ok(list) = list else { return sides.stays(&before).map(|()| told) };
        list.iter().take(stores).for_each(|&(at, byte)| sides.second[at] = byte);
        if stores >= list.len() {
            return same("a capture appended to", sides.proved(), &sides.second).map(|()| told);
        }
        // each byte is what it was or what it is to be, and the last to be stored is what it was
        let mut done = before.proved().to_vec();
        list.iter().for_each(|&(at, byte)| done[at] = byte);
        let last = list[list.len() - 1].0;
        for (at, &byte) in sides.proved().iter().enumerate() {
            if byte != before.proved()[at] && (byte != done[at] || at == last) {
                let block = at / BLOCK + 1;
                return Err(format!(
                    "the cut leaves {byte} for byte {} of block {block}, which no store of it does",
                    at % BLOCK
                ));
            }
        }
        Ok(told)
    }

    /// How many blocks of any memory are finished.
    pub fn finished(&mut self, memory: &[u8]) -> Result<Told, String> {
        let told = capture::finished(memory);
        self.answered("finished", raw::capture_finished(memory), outcome(told), number(told))?;
        if let Ok(bytes) = memory.try_into() {
            let named = Capture::from_bytes(bytes).finished().map_err(|why| why.place);
            let expected = told.map_err(|why| why.place().unwrap_or(0));
            if named != expected {
                return Err(differ("how many blocks are finished, by its names", &named, &expected));
            }
        }
        Ok(told)
    }

    /// The payload at a place of any memory.
    pub fn payload(&mut self, memory: &[u8], place: usize) -> Result<Vec<u8>, String> {
        let told = capture::payload(memory, place);
        let start = |payload: &[u8]| if payload.is_empty() { 0 } else { BLOCK * (place - 1) + 6 };
        let expected = match told {
            Ok(payload) => (payload.len() as u64) << 16 | (start(payload) as u64) << 32,
            Err(why) => outcome(Err(why)),
        };
        let within = |what: String| format!("asked for the payload at {place}: {what}");
        self.answered("payload", raw::capture_payload(memory, place), expected, number(told.map(<[u8]>::len)))
            .map_err(within)?;
        match told {
            Ok([]) if !(1..=PLACES).contains(&place) => self.occurred("places that there are not"),
            Ok([]) => self.occurred("unfinished places"),
            Ok(_) => self.occurred("payloads"),
            Err(_) => {}
        }
        if let Ok(bytes) = memory.try_into() {
            let capture = Capture::from_bytes(bytes);
            let (named, second) =
                (capture.payload(place), told.map_err(|why| BadBlock { place: why.place().unwrap_or(0) }));
            if named != second {
                return Err(within(differ("the payload", &named, &second)));
            }
        }
        Ok(told.unwrap_or_default().to_vec())
    }

    pub fn clear(&mut self, sides: &mut Sides) -> Result<Told, String> {
        let before = sides.clone();
        let own = raw::capture_clear(sides.lent());
        let told = capture::clear(&mut sides.second).map(|()| 0);
        self.answered("clear", own, outcome(told), number(told))?;
        sides.guards()?;
        if told.is_err() {
            return sides.stays(&before).map(|()| told);
        }
        same("a capture that was cleared", sides.proved(), &sides.second)?;
        same("a capture that was cleared", sides.proved(), Capture::new().bytes())?;
        if let Some(mut named) = before.named() {
            named.clear();
            same("a capture that was cleared by its names", named.bytes(), &sides.second)?;
        }
        Ok(told)
    }

    /// Both readers find so many payloads in a memory, and no other.
    pub fn found(&mut self, memory: &[u8], kept: &[Vec<u8>], places: &[usize]) -> Result<(), String> {
        let count = self.finished(memory)?;
        if count != Ok(kept.len()) {
            return Err(format!("{count:?} blocks are found and not {}", kept.len()));
        }
        for &place in places {
            let payload = self.payload(memory, place)?;
            let expected = place.checked_sub(1).and_then(|at| kept.get(at)).map_or(&[][..], |kept| kept);
            if payload != expected {
                return Err(format!("at place {place} {payload:?} is found and not {expected:?}"));
            }
        }
        Ok(())
    }

    /// The same append by its names: the answer, and the memory afterwards.
    fn named(
        before: &Sides,
        sides: &Sides,
        told: Told,
        append: impl FnOnce(&mut Capture) -> Result<usize, NotAppended>,
    ) -> Result<(), String> {
        let Some(mut capture) = before.named() else { return Ok(()) };
        let (named, expected) = (append(&mut capture), told.map_err(not_appended));
        if named.map_err(Some) != expected {
            return Err(differ("the append by its names", &named, &expected));
        }
        same("memory of an append by its names", capture.bytes(), sides.proved())
    }

    /// A refusal that goes before others.
    fn ordered(&mut self, before: &Sides, payload: &[u8], told: Told) {
        let misfits = !(1..=capture::MOST).contains(&payload.len());
        match (told, capture::finished(&before.second)) {
            (Err(Refusal::Memory), _) if misfits => self.occurred("34 where it is 31 too"),
            (Err(Refusal::Payload), Err(Refusal::Bad(_))) => self.occurred("31 where it is 33 too"),
            (Err(Refusal::Payload), Ok(PLACES)) => self.occurred("31 where it is 32 too"),
            (Err(Refusal::Bad(_)), _) if before.second.chunks(BLOCK).all(|block| block[..4] != [0; 4]) => {
                self.occurred("33 where all blocks have a number")
            }
            _ => {}
        }
    }

    fn occurred(&mut self, name: &'static str) {
        *self.others.entry(name).or_default() += 1;
    }

    /// Both answer the same, with the same figures.
    fn answered(&mut self, call: &'static str, own: u64, second: u64, number: u8) -> Result<(), String> {
        if own != second {
            return Err(format!("{call} gives the outcome {own:#X}, and the second program {second:#X}"));
        }
        *self.answers.entry((call, number)).or_default() += 1;
        Ok(())
    }

    /// What did not occur.
    pub fn missed(&self) -> Option<String> {
        let mut all = ANSWERS.iter().flat_map(|(call, answers)| answers.iter().map(move |answer| (*call, *answer)));
        let answer = all.find(|key| !self.answers.contains_key(key));
        let other = OTHERS.iter().find(|name| !self.others.contains_key(*name));
        let other = || other.map(|name| format!("of captures, {name}"));
        answer.map(|(call, answer)| format!("answer {answer} of the capture's {call}")).or_else(other)
    }
}

impl fmt::Display for Calls {
    fn fmt(&self, f: &mut fmt::Formatter) -> fmt::Result {
        for (call, answers) in ANSWERS {
            f.write_str(call)?;
            for answer in answers {
                write!(f, " {answer}:{}", self.answers.get(&(call, *answer)).unwrap_or(&0))?;
            }
            f.write_str("; ")?;
        }
        let others = OTHERS.map(|name| format!("{name}:{}", self.others.get(name).unwrap_or(&0)));
        f.write_str(&others.join(", "))
    }
}

/// How many bytes a capture has, and sizes that no capture has.
pub const SIZES: [usize; 10] = [0, 1, 511, 512, 513, BYTES - BLOCK, BYTES - 1, BYTES + 1, BYTES + BLOCK, 2 * BYTES];
