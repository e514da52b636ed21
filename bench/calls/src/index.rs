//! Index values of the derivatives exchange, in frames of 29 and of 34 bytes: read whole and for the answer alone, written, and a
//! long line of them walked for its tally.

use std::hint::black_box;

use compare::same;
use second::derivatives::{read_at, write, Derivatives2015, Kind, Message};
use second::random::Random;
use second::units::Thousandths;
use trivsome::{Answer, Index, NotWritten};

use crate::kinds::MANY;
use crate::timing::{both, Effort, Row};

const PART: &str = "index values";
const ROOM: usize = 40;

/// Messages of one kind and form, and their frames one behind the other with the places at which they begin.
struct Values {
    name: &'static str,
    messages: Vec<Message>,
    line: Vec<u8>,
    places: Vec<usize>,
}

impl Values {
    fn new(name: &'static str, seed: u64, kind: Kind, contract_length: usize) -> Result<Values, String> {
        let mut random = Random::new(seed);
        let messages: Vec<Message> =
            (1..=MANY as u32).map(|seq| any_message(&mut random, seq, kind, contract_length)).collect();
        let (mut line, mut places) = (Vec::new(), Vec::new());
        for message in &messages {
            let mut buffer = [0; ROOM];
            let length = write(message, &mut buffer).map_err(|why| format!("{name}: {why:?}: {message:?}"))?;
            places.push(line.len());
            line.extend(&buffer[..length]);
        }
        Ok(Values { name, messages, line, places })
    }

    fn row(&self, what: &str, (proved, second): (f64, f64)) -> Row {
        let bytes = self.line.len() as f64 / self.places.len() as f64;
        Row { part: PART, name: format!("{}, {what}", self.name), bytes, proved, second }
    }
}

/// HHMMSScc of a trading day.
fn time(random: &mut Random) -> u32 {
    let hours = 9 + random.below(4);
    (((hours * 100 + random.below(60)) * 100 + random.below(60)) * 100 + random.below(100)) as u32
}

fn any_message(random: &mut Random, seq: u32, kind: Kind, contract_length: usize) -> Message {
    let mut contract = [0; 8];
    contract[..contract_length].fill_with(|| b'A' + random.below(26) as u8);
    Message {
        market: random.pick(b"14"),
        kind,
        sent: time(random),
        seq,
        contract_length,
        contract,
        time: time(random),
        value: Thousandths(random.below(100_000_000) as u32),
        status: random.byte() & !kind.reserved(),
    }
}

pub fn index(effort: Effort) -> Result<Vec<Row>, String> {
    let short = Values::new("I060 of 29 bytes", 17, Kind::I060, 3)?;
    let long = Values::new("I064 of 34 bytes", 18, Kind::I064, 8)?;
    for values in [&short, &long] {
        agree(values).map_err(|what| format!("{}: {what}", values.name))?;
    }
    Ok(vec![
        short.row("read", read(effort, &short)?),
        long.row("read", read(effort, &long)?),
        short.row("the answer alone", alone(effort, &short)?),
        short.row("written", written(effort, &short)?),
        long.row("written", written(effort, &long)?),
        short.row("walked", walked(effort, &short)?),
    ])
}

fn sum(number: u8, length: usize) -> u64 {
    u64::from(number) + 256 * length as u64
}

fn seconds(values: &Values) -> u64 {
    let line = black_box(&values.line[..]);
    let mut sums = 0;
    for &place in &values.places {
        let mut answer = read_at(line, place);
        black_box(&mut answer);
        sums += sum(answer.number(), answer.length().unwrap_or(0));
    }
    sums
}

fn read(effort: Effort, values: &Values) -> Result<(f64, f64), String> {
    let mut index = Index::default();
    let proved = || {
        let line = black_box(&values.line[..]);
        let mut sums = 0;
        for &place in &values.places {
            let answer =
                trivsome::read_index_into(line, place, &mut index).map_or_else(|answer| answer, Answer::Accepted);
            black_box(&mut index);
            sums += sum(answer.number(), answer.length());
        }
        sums
    };
    both(effort, values.places.len(), proved, || seconds(values))
}

fn alone(effort: Effort, values: &Values) -> Result<(f64, f64), String> {
    let proved = || {
        let line = black_box(&values.line[..]);
        let mut sums = 0;
        for &place in &values.places {
            let outcome = black_box(trivsome::read_derivatives(line, place));
            sums += sum(outcome.number(), outcome.length());
        }
        sums
    };
    both(effort, values.places.len(), proved, || seconds(values))
}

fn written(effort: Effort, values: &Values) -> Result<(f64, f64), String> {
    let ours: Vec<Index> = values.messages.iter().map(same::index).collect();
    let proved = all(&ours, |index, buffer| trivsome::write_index(index, buffer).map_err(NotWritten::number));
    let second = all(&values.messages, |message, buffer| write(message, buffer).map_err(second::NotWritten::number));
    both(effort, ours.len(), proved, second)
}

/// Writes all messages, and sums up their lengths and check bytes.
fn all<'a, M>(messages: &'a [M], write: impl Fn(&M, &mut [u8]) -> Result<usize, u8> + 'a) -> impl FnMut() -> u64 + 'a {
    let mut buffer = [0; ROOM];
    move || {
        let mut sum = 0;
        for message in black_box(messages) {
            let length = write(message, &mut buffer).unwrap_or(3);
            black_box(&mut buffer);
            sum += length as u64 + 256 * u64::from(buffer[length - 3]);
        }
        sum
    }
}

fn walked(effort: Effort, values: &Values) -> Result<(f64, f64), String> {
    let times = (effort.line / values.line.len()).max(1);
    let line = values.line.repeat(times);
    let proved = || {
        let mut tally = trivsome::Tally::default();
        let answer = tally.walk_derivatives(black_box(&line), trivsome::Line::Closed);
        u64::from(answer.is_ok()) + 2 * tally.accepted + 3 * tally.refused + 5 * tally.skipped
    };
    let second = || {
        let mut tally = second::walk::Tally::default();
        let answer = tally.walk_of::<Derivatives2015>(black_box(&line), second::walk::Line::Closed);
        u64::from(answer.is_ok()) + 2 * tally.accepted + 3 * tally.refused + 5 * tally.skipped
    };
    both(effort, times * values.places.len(), proved, second)
}

/// Both read the same messages, and write the same bytes.
fn agree(values: &Values) -> Result<(), String> {
    for (&place, message) in values.places.iter().zip(&values.messages) {
        let answer = read_at(&values.line, place);
        let own = trivsome::read_index(&values.line, place).map_err(|why| why.to_string())?;
        let outcome = trivsome::raw::derivatives_read(&values.line, place);
        if outcome != same::outcome(&answer) || answer.message().map(same::index) != Some(own.1) {
            return Err(format!("at {place} it is {own:?} against {answer:?}"));
        }
        let (mut ours, mut theirs) = ([0xEE; ROOM], [0xEE; ROOM]);
        let proved = trivsome::write_index(&own.1, &mut ours).map_err(NotWritten::number);
        let second = write(message, &mut theirs).map_err(second::NotWritten::number);
        if proved != second || proved.is_err() || ours != theirs {
            return Err(format!("{proved:?} {}\nagainst {second:?} {}", same::hex(&ours), same::hex(&theirs)));
        }
    }
    Ok(())
}
