//! Frames with a bad digit early and late in the body, read in turn by the call of their format: the answer with the digit's place.

use std::hint::black_box;

use second::random::Random;
use second::reading::read_at;
use trivsome::{Answer, Frame, NotRead, Prices, Quote};

use crate::kinds::{Kind, SLOTS, TYPICAL};
use crate::reading::agree;
use crate::timing::{both, Effort, Row};

const PART: &str = "refused";

/// The halves of a frame that are made bad: the first of a quote's time, the last of its ninth pair, and the last of the last slot.
const TIME: usize = 32;
const NINTH_PAIR: usize = 219;
const LAST_SLOT: usize = 741;

/// Quotes and prices, each with a bad digit at the same place.
pub fn refused(effort: Effort, kinds: &[Kind]) -> Result<Vec<Row>, String> {
    let kind = |name: &str| kinds.iter().find(|kind| kind.name == name).ok_or(format!("there are no {name}"));
    let (quotes, prices) = (kind(TYPICAL)?, kind(SLOTS)?);
    Ok(vec![
        row(effort, quotes, "first digit bad", TIME, trivsome::read_quote_into, Quote::default())?,
        row(effort, quotes, "last digit bad", NINTH_PAIR, trivsome::read_quote_into, Quote::default())?,
        row(effort, prices, "last digit bad", LAST_SLOT, trivsome::read_prices_into, Prices::default())?,
    ])
}

fn row<M>(
    effort: Effort,
    kind: &Kind,
    what: &str,
    half: usize,
    read: impl Fn(&[u8], usize, &mut M) -> Result<Frame, NotRead>,
    mut message: M,
) -> Result<Row, String> {
    let (name, line) = (format!("{}, {what}", kind.name), with_bad_half(kind, half));
    for &place in &kind.places {
        let within = |what: String| format!("reading {name} at {place}: {what}");
        agree(&line, place).map_err(within)?;
        let answer = read_at(&line, place);
        if (answer.number(), answer.place()) != (11, Some(half)) {
            return Err(within(format!("{} at {:?}", answer.number(), answer.place())));
        }
    }
    let ours = || {
        let line = black_box(&line[..]);
        let mut sums = 0;
        for &place in &kind.places {
            let answer = read(line, place, &mut message).map_or_else(NotRead::answer, Answer::Accepted);
            black_box(&mut message);
            sums += sum(answer.number(), answer.length(), answer.bad_half().map(usize::from));
        }
        sums
    };
    let theirs = || {
        let line = black_box(&line[..]);
        let mut sums = 0;
        for &place in &kind.places {
            let mut answer = read_at(line, place);
            black_box(&mut answer);
            sums += sum(answer.number(), answer.length().unwrap_or(0), answer.place());
        }
        sums
    };
    let (proved, second) = both(effort, kind.places.len(), ours, theirs)?;
    Ok(Row { part: PART, name, bytes: kind.bytes(), proved, second })
}

/// The frames of a kind with one half made bad in each, and the check byte that goes with it.
fn with_bad_half(kind: &Kind, half: usize) -> Vec<u8> {
    let (mut line, mut random) = (kind.line.clone(), Random::new(15));
    let ends: Vec<usize> = kind.places[1..].iter().copied().chain([line.len()]).collect();
    for (place, end) in kind.places.iter().zip(ends) {
        let (at, value) = (place + half / 2, random.within(10..=15) as u8);
        let byte = match half % 2 {
            0 => line[at] & 0x0F | value << 4,
            _ => line[at] & 0xF0 | value,
        };
        line[end - 3] ^= line[at] ^ byte;
        line[at] = byte;
    }
    line
}

fn sum(number: u8, length: usize, bad_half: Option<usize>) -> u64 {
    u64::from(number) + 256 * length as u64 + 65_536 * bad_half.map_or(0, |half| half as u64 + 1)
}
