//! Index values of the derivatives exchange: readings at every place of its lines, a bad half at every half that holds a digit, and
//! writings into buffers of every length around a frame's.

use std::collections::BTreeMap;
use std::fmt;

use second::derivatives::faults::{names, spoil};
use second::derivatives::seen::Seen;
use second::derivatives::{read_at, write, Derivatives2015, Message};
use second::random::Random;
use second::seen::around_of;
use second::NotWritten;
use trivsome::{raw, Index, Thousandths};

use crate::bad_halves::put;
use crate::same::{above, differ, hex, index, moved, outcome, packed, told};

/// What is lent for a reading holds these before.
const LENT: Index = Index {
    seq: 0xA5A5_A5A5,
    sent: 0xA5A5_A5A5,
    time: 0xA5A5_A5A5,
    value: Thousandths(0xA5A5_A5A5),
    market: 0xA5,
    kind: 0xA5,
    length: 0xA5,
    status: 0xA5,
    contract: [0xA5; 8],
};

/// The answer for a length, and the one that this exchange does not give.
const LENGTH: u8 = 3;
const NONE: usize = 10;

/// Bytes of the two forms of a frame, and the half at which the body's time begins.
const FORMS: [(usize, usize); 2] = [(29, 34), (34, 44)];

/// At most so many bytes stand before a frame with a bad half.
const BEFORE: usize = 3;

/// What buffers hold before a writing, and the most room that they have.
const BEHIND: u8 = 0xEE;
const ROOM: usize = 40;

/// How many messages with faults are made of each accepted one.
const SPOILED: usize = 3;

/// A frame that was accepted: its place and the second program's message of it.
pub struct Accepted {
    place: usize,
    length: usize,
    message: Message,
}

/// What occurred.
#[derive(Default)]
pub struct Indexes {
    places: u64,
    /// By the answers' numbers, at every place.
    answers: [u64; 14],
    /// By the walk over the lines.
    seen: Seen,
    /// How often a half was told, by kind, form and half.
    halves: BTreeMap<(u8, usize, usize), u64>,
    /// Frames with one bad half, and those with further ones behind it.
    bad: [u64; 2],
    written: u64,
    /// 14 with room for any frame, and with less than the frame would take.
    wrong: [u64; 2],
    short: u64,
    /// How often each kind of fault, alone in a message, answered 14.
    faults: BTreeMap<&'static str, u64>,
    /// Bytes that are no kind.
    no_kinds: u64,
}

impl Indexes {
    /// Compares everything on a line.
    pub fn line(&mut self, line: &[u8], random: &mut Random) -> Result<(), String> {
        self.seen.line(line)?;
        let accepted = self.readings(line)?;
        for Accepted { place, length, message } in &accepted {
            let frame = &line[*place..place + length];
            let within = |what: String| format!("the index value of {}: {what}", hex(frame));
            self.bad_half(frame, message, random).map_err(within)?;
            self.back(frame, message, random).map_err(within)?;
            self.spoiled(*length, message, random).map_err(within)?;
        }
        Ok(())
    }

    /// The readings at every place of a line and past its end, and of each frame and each wrong length with its line ending behind
    /// it or a byte before. Gives the accepted frames.
    fn readings(&mut self, line: &[u8]) -> Result<Vec<Accepted>, String> {
        let mut accepted = Vec::new();
        for place in (0..line.len() + 2).chain([usize::MAX]) {
            let within = |what: String| {
                format!("place {place}: {what}\n{}", around_of::<Derivatives2015>(line, place.min(line.len())))
            };
            let answer = read_at(line, place);
            self.places += 1;
            self.answers[usize::from(answer.number())] += 1;
            one(line, place, &answer).map_err(within)?;
            // a length that is wrong is told by 14 bytes
            if let Some(length) = answer.length().or((answer.number() == LENGTH).then_some(14)) {
                for end in [place + length, place + length - 1] {
                    let line = &line[..end];
                    one(line, place, &read_at(line, place)).map_err(|what| within(format!("cut at {end}, {what}")))?;
                }
                if let Some(&message) = answer.message() {
                    accepted.push(Accepted { place, length, message });
                }
            }
        }
        Ok(accepted)
    }

    /// A half of an accepted frame made bad, the one of its kind and form that was told least.
    fn bad_half(&mut self, frame: &[u8], message: &Message, random: &mut Random) -> Result<(), String> {
        let (kind, length) = (message.kind.byte(), frame.len());
        let time = FORMS.iter().find(|form| form.0 == length).map_or(0, |form| form.1);
        let spots = || (6..28).chain(time..time + 16);
        let times = |half: &usize| self.halves.get(&(kind, length, *half)).copied().unwrap_or(0);
        let half = spots().min_by_key(times).ok_or("there is no digit")?;
        *self.halves.entry((kind, length, half)).or_default() += 1;
        let mut bad = frame.to_vec();
        put(&mut bad, half, 10 + random.below(6) as u8);
        let (alone, mut others) = (random.one_in(2), 0);
        // a bad half of the length is told before any other
        for other in spots().filter(|other| !alone && *other > half && !((24..28).contains(other) && half < 24)) {
            if random.one_in(8) {
                put(&mut bad, other, 10 + random.below(6) as u8);
                others += 1;
            }
        }
        self.bad[usize::from(others > 0)] += 1;
        let before = random.within(0..=BEFORE);
        let line = [&[b'.'; BEFORE][..before], &bad].concat();
        let (number, length) = match half {
            6..24 => (6, length),
            24..28 => (3, 0),
            _ => (11, length),
        };
        let within = |what: String| format!("half {half}: {what}\n{}", hex(&bad));
        let answer = read_at(&line, before);
        let (second, expected) = (outcome(&answer), packed(number, 0, length, above(Some(half))));
        if second != expected {
            return Err(within(format!("the second program tells {}, and not {}", told(second), told(expected))));
        }
        self.readings(&line).map_err(within)?;
        for closed in [false, true] {
            let (proved, second) = (raw::derivatives_move_at(&line, before, closed), moved(&answer, length.max(1)));
            if proved != second {
                return Err(within(differ("the move's outcome", &told(proved), &told(second))));
            }
        }
        Ok(())
    }

    /// The frame's own bytes where there is room, and 15 where there is less.
    fn back(&mut self, frame: &[u8], message: &Message, random: &mut Random) -> Result<(), String> {
        let length = frame.len();
        for room in (length - 3..=length + 3).chain([random.below(length as u64) as usize]) {
            let (answer, buffer) = both(message, room)?;
            if room < length {
                if answer != Err(15) {
                    return Err(format!("with room for {room} bytes it answers {answer:?}"));
                }
                self.short += 1;
            } else if answer != Ok(length) || !buffer.starts_with(frame) {
                return Err(format!("written back it is {answer:?}, {}", hex(&buffer[..room])));
            } else {
                self.written += 1;
            }
        }
        Ok(())
    }

    /// 14 for a fault or two, and for a byte that is no kind, whatever the room.
    fn spoiled(&mut self, length: usize, message: &Message, random: &mut Random) -> Result<(), String> {
        for _ in 0..SPOILED {
            let mut wrong = *message;
            let name = spoil(&mut wrong, random);
            // a further fault needs a length that a contract may have
            let alone = random.below(4) > 0 || ![3, 8].contains(&wrong.contract_length);
            if !alone {
                spoil(&mut wrong, random);
            }
            for (kind, room) in [ROOM, random.below(length as u64) as usize].into_iter().enumerate() {
                let (answer, _) = both(&wrong, room).map_err(|what| format!("{name}: {what}\nof {wrong:?}"))?;
                if answer != Err(14) {
                    return Err(format!("{name}: with room for {room} bytes it answers {answer:?}\nof {wrong:?}"));
                }
                self.wrong[kind] += 1;
            }
            if alone {
                *self.faults.entry(name).or_default() += 1;
            }
        }
        let kind = random.byte();
        if !b"58".contains(&kind) {
            let (wrong, mut buffer) = (Index { kind, ..index(message) }, [BEHIND; ROOM]);
            let proved = raw::write_index(&wrong, &mut buffer);
            if proved != 14 || buffer != [BEHIND; ROOM] {
                return Err(format!("the kind {kind} answers {proved}, {}", hex(&buffer)));
            }
            self.no_kinds += 1;
        }
        Ok(())
    }

    /// What did not occur, or should not have.
    pub fn missed(&self) -> Option<String> {
        let answers = self.answers.iter().enumerate();
        let answer = answers.filter(|(answer, times)| (**times == 0) != (*answer == NONE)).map(|(answer, _)| answer);
        let answer = answer.map(|answer| format!("index values: answer {answer}")).next();
        let seen = (!self.seen.is_all()).then(|| format!("one of these: {}", self.seen));
        // both kinds, in both forms: the header's halves and the length's, and those of time and value
        let halves = (self.halves.len() != 2 * 2 * (22 + 16)).then(|| "one of the bad halves".into());
        let fault = names().into_iter().find(|name| !self.faults.contains_key(name)).map(str::to_string);
        let counts = [self.bad[0], self.bad[1], self.written, self.wrong[0], self.wrong[1], self.short, self.no_kinds];
        answer.or(seen).or(halves).or(fault).or_else(|| counts.contains(&0).then(|| "a writing or a bad half".into()))
    }
}

impl fmt::Display for Indexes {
    fn fmt(&self, f: &mut fmt::Formatter) -> fmt::Result {
        write!(f, "{} places;", self.places)?;
        self.answers.iter().enumerate().try_for_each(|(answer, times)| write!(f, " {answer}:{times}"))?;
        let ([alone, further], [room, none]) = (self.bad, self.wrong);
        write!(f, "; bad halves in {} places, {alone} alone, {further} with others behind them; ", self.halves.len())?;
        write!(f, "written 0:{} 14:{} 15:{}, ", self.written, room + none + self.no_kinds, self.short)?;
        write!(f, "{} kinds of fault, 14 where it is 15 too:{none}, no kind:{}", self.faults.len(), self.no_kinds)
    }
}

/// Both readings of a place, the answer alone and the index value, which a refusal leaves as it was.
fn one(line: &[u8], place: usize, answer: &second::Answer<Message>) -> Result<(), String> {
    let expected = outcome(answer);
    let proved = raw::derivatives_read(line, place);
    if proved != expected {
        return Err(differ("read", &told(proved), &told(expected)));
    }
    let mut lent = LENT;
    let proved = raw::read_index(line, place, &mut lent);
    if proved != expected {
        return Err(differ("reading an index value", &told(proved), &told(expected)));
    }
    // the number is in the outcome
    let left = answer.message().map_or(LENT, |message| Index { seq: LENT.seq, ..index(message) });
    if lent != left {
        return Err(differ("the lent index value", &lent, &left));
    }
    let mut lent = LENT;
    let (named, told) = (trivsome::read_index_into(line, place, &mut lent), trivsome::read_derivatives(line, place));
    let accepted = answer.message().map(index);
    if named.map_err(trivsome::Answer::number).map(|frame| (frame.length, frame.seq))
        != accepted.map_or(Err(answer.number()), |index| Ok((answer.length().unwrap_or(0), index.seq)))
        || lent != accepted.unwrap_or(LENT)
        || named.map_or_else(|answer| answer, trivsome::Answer::Accepted) != told.answer()
    {
        return Err(differ("reading an index value by its names", &(named, lent), &answer));
    }
    Ok(())
}

/// Both write a message into so much room of a buffer, and leave the same.
fn both(message: &Message, room: usize) -> Result<(Result<usize, u8>, [u8; ROOM]), String> {
    let (mut ours, mut theirs, mut again) = ([BEHIND; ROOM], [BEHIND; ROOM], [BEHIND; ROOM]);
    let second = write(message, &mut theirs[..room]).map_err(NotWritten::number);
    let index = index(message);
    let proved = trivsome::write_index(&index, &mut ours[..room]).map_err(trivsome::NotWritten::number);
    if proved != second {
        return Err(differ(&format!("writing with room for {room} bytes"), &proved, &second));
    }
    let outcome = raw::write_index(&index, &mut again[..room]);
    let expected = second.map_or_else(|number| packed(number, 0, 0, 0), |length| packed(0, 0, length, 0));
    if outcome != expected || again != ours {
        return Err(differ(&format!("the outcome with room for {room} bytes"), &outcome, &expected));
    }
    if ours != theirs || ours[second.unwrap_or(0)..].iter().any(|&byte| byte != BEHIND) {
        let what = format!("the buffer after {second:?} with room for {room} bytes");
        return Err(format!("{what} differs\n  proved: {}\n  second: {}", hex(&ours), hex(&theirs)));
    }
    Ok((second, ours))
}
