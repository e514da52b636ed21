//! Frames read in turn by their places: the message whole, into memory that is used again, and the answer alone.

use std::hint::black_box;

use compare::same;
use second::random::Random;
use second::reading::read_at;
use second::Message;
use trivsome::{Answer, Frame, Halt, NotRead, Notice, Prices, Quote};

use crate::kinds::{Kind, TYPICAL};
use crate::timing::{both, Effort, Row};

const PART: &str = "reading";
const ALONE: &str = "the answer alone";

/// The place of a frame's byte that is made wrong: the check byte, from the frame's end.
const CHECK: usize = 3;

/// How many places of noise are read at.
const NOISE: usize = 4096;

/// The reading of one kind's messages.
pub fn reading(effort: Effort, kind: &Kind) -> Result<Row, String> {
    for &place in &kind.places {
        agree(&kind.line, place).map_err(|what| format!("reading {} at {place}: {what}", kind.name))?;
    }
    let theirs = || seconds(&kind.line, &kind.places);
    let items = kind.places.len();
    let (proved, second) = match kind.messages[0] {
        Message::Five(_) => both(effort, items, ours(kind, trivsome::read_notice_into, Notice::default()), theirs),
        Message::Six(_) => both(effort, items, ours(kind, trivsome::read_quote_into, Quote::default()), theirs),
        Message::Twelve(_) => both(effort, items, ours(kind, trivsome::read_prices_into, Prices::default()), theirs),
        Message::Nineteen(_) => both(effort, items, ours(kind, trivsome::read_halt_into, Halt::default()), theirs),
    }?;
    Ok(Row { part: PART, name: kind.name.into(), bytes: kind.bytes(), proved, second })
}

/// Good quotes, quotes whose check byte is wrong, and noise, of which the proved side reads the answer alone. The second
/// program has no call for that, and reads as ever.
pub fn alone(effort: Effort, kinds: &[Kind]) -> Result<Vec<Row>, String> {
    let kind = kinds.iter().find(|kind| kind.name == TYPICAL).ok_or("there are no such quotes")?;
    let mut wrong = kind.line.clone();
    for end in kind.places[1..].iter().copied().chain([wrong.len()]) {
        wrong[end - CHECK] ^= 0x40;
    }
    let mut random = Random::new(9);
    let noise: Vec<u8> = (0..NOISE).map(|_| random.byte()).collect();
    let every: Vec<usize> = (0..noise.len()).collect();
    [
        (kind.name.to_string(), &kind.line, &kind.places, kind.bytes()),
        (format!("{}, check byte wrong", kind.name), &wrong, &kind.places, kind.bytes()),
        ("noise, at each of its bytes".to_string(), &noise, &every, 1.0),
    ]
    .into_iter()
    .map(|(name, line, places, bytes)| {
        for &place in places {
            agree(line, place).map_err(|what| format!("reading {name} at {place}: {what}"))?;
        }
        let (proved, second) = both(effort, places.len(), || answers(line, places), || seconds(line, places))?;
        Ok(Row { part: ALONE, name, bytes, proved, second })
    })
    .collect()
}

fn sum(number: u8, length: usize) -> u64 {
    u64::from(number) + 256 * length as u64
}

fn ours<'a, M: 'a>(
    kind: &'a Kind,
    read: impl Fn(&[u8], usize, &mut M) -> Result<Frame, NotRead> + 'a,
    mut message: M,
) -> impl FnMut() -> u64 + 'a {
    move || {
        let line = black_box(&kind.line[..]);
        let mut sums = 0;
        for &place in &kind.places {
            let answer = read(line, place, &mut message).map_or_else(NotRead::answer, Answer::Accepted);
            black_box(&mut message);
            sums += sum(answer.number(), answer.length());
        }
        sums
    }
}

fn answers(line: &[u8], places: &[usize]) -> u64 {
    let line = black_box(line);
    let mut sums = 0;
    for &place in places {
        let outcome = black_box(trivsome::read(line, place));
        sums += sum(outcome.number(), outcome.length());
    }
    sums
}

fn seconds(line: &[u8], places: &[usize]) -> u64 {
    let line = black_box(line);
    let mut sums = 0;
    for &place in places {
        let mut answer = read_at(line, place);
        black_box(&mut answer);
        sums += sum(answer.number(), answer.length().unwrap_or(0));
    }
    sums
}

/// Both give the same answer and the same message.
pub fn agree(line: &[u8], place: usize) -> Result<(), String> {
    let answer = read_at(line, place);
    let (proved, expected) = (trivsome::raw::read(line, place), same::outcome(&answer));
    if proved != expected {
        return Err(format!("{} against {}", same::told(proved), same::told(expected)));
    }
    let (mut notice, mut quote, mut prices, mut halt) =
        (Notice::default(), Quote::default(), Prices::default(), Halt::default());
    let readings = [
        (Notice::FORMAT, trivsome::read_notice_into(line, place, &mut notice)),
        (Quote::FORMAT, trivsome::read_quote_into(line, place, &mut quote)),
        (Prices::FORMAT, trivsome::read_prices_into(line, place, &mut prices)),
        (Halt::FORMAT, trivsome::read_halt_into(line, place, &mut halt)),
    ];
    for (format, told) in readings {
        let expected = same::reading(&answer, format);
        if told != expected {
            return Err(format!("{told:?} against {expected:?}"));
        }
    }
    let is_same = match answer.message() {
        None => true,
        Some(Message::Five(other)) => same::notice(other) == Some(notice),
        Some(Message::Six(other)) => same::quote(other) == quote,
        Some(Message::Twelve(other)) => same::prices(other) == prices,
        Some(Message::Nineteen(other)) => same::halt(other) == halt,
    };
    if is_same {
        Ok(())
    } else {
        Err(format!("the messages differ; the second program's is {:?}", answer.message()))
    }
}
