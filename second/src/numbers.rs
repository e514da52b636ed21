//! What a ledger says of series of arrivals and give-ups, given as text: a number a line, `give-up` a line, and an empty line
//! behind each series. A line of several numbers is a lent record instead: its ends, and behind a `/` its floor and how many
//! numbers were given up, where these are not 0.

use std::io::{self, BufRead, Write};

use crate::ledger::{Arrival, Ledger, Refusal, Run, GREATEST_NUMBER, MOST_RUNS};

/// The most ends that a record has: the highest, and two for each run but for one that begins at 1.
const MOST_ENDS: usize = 2 * MOST_RUNS + 1;

/// The number whose arrival a lent record is asked for.
const ASKED: u32 = 3;

/// A ledger that answers 20, for a record that stands for none.
const IMPOSSIBLE: Ledger = Ledger { heard: 1, ..Ledger::FRESH };

/// What a line says.
enum Said {
    /// Nothing: a series has ended.
    End,
    Arrival(u32),
    GiveUp,
    Lent(Record),
}

/// A record as numbers. The ends are, from the highest down, the numbers behind which the next is on the other side: settled
/// below missing, or missing below settled. Settled are the numbers that were heard, and all up to the floor.
struct Record {
    ends: Vec<u32>,
    floor: u32,
    given_up: u32,
}

/// Reads the input to its end. For each arrival it writes the number and its answer, for each give-up the run, and for each
/// series and lent record the figures and the runs; then those of what came behind the last empty line.
pub fn tell<R: BufRead, W: Write>(input: R, mut output: W) -> io::Result<()> {
    let mut ledger = Ledger::FRESH;
    for line in input.lines() {
        match said(&line?)? {
            Said::End => {
                figures(&ledger, &mut output)?;
                ledger.clear();
            }
            Said::Arrival(number) => writeln!(output, "{number} {}", word(ledger.arrival(number)))?,
            Said::GiveUp => writeln!(output, "give-up {}", shown(ledger.give_up()))?,
            Said::Lent(record) => {
                let lent = of_record(&record).unwrap_or(IMPOSSIBLE);
                let (mut asked, mut without) = (lent, lent);
                writeln!(output, "lent {}", word(asked.arrival(ASKED)))?;
                writeln!(output, "lent give-up {}", shown(without.give_up()))?;
                figures(&lent, &mut output)?;
            }
        }
    }
    figures(&ledger, &mut output)?;
    output.flush()
}

fn said(line: &str) -> io::Result<Said> {
    if line.contains('g') {
        return Ok(Said::GiveUp);
    }
    if let Some((ends, behind)) = line.split_once('/') {
        let behind = numbers(behind)?;
        let figure = |place: usize| behind.get(place).copied().unwrap_or(0);
        return Ok(Said::Lent(Record { ends: numbers(ends)?, floor: figure(0), given_up: figure(1) }));
    }
    let ends = numbers(line)?;
    Ok(match ends[..] {
        [] => Said::End,
        [number] => Said::Arrival(number),
        _ => Said::Lent(Record { ends, floor: 0, given_up: 0 }),
    })
}

fn numbers(text: &str) -> io::Result<Vec<u32>> {
    let numbers: Result<_, _> = text.split_whitespace().map(str::parse).collect();
    numbers.map_err(|why| io::Error::new(io::ErrorKind::InvalidData, format!("{text}: {why}")))
}

fn word(answer: Result<Arrival, Refusal>) -> String {
    match answer {
        Ok(Arrival::New) => "new".into(),
        Ok(Arrival::Repeat) => "repeat".into(),
        Err(why) => why.number().to_string(),
    }
}

fn shown(run: Result<Run, Refusal>) -> String {
    match run {
        Ok(Run { first, last }) => format!("{first}-{last}"),
        Err(why) => why.number().to_string(),
    }
}

fn figures<W: Write>(ledger: &Ledger, output: &mut W) -> io::Result<()> {
    let figure = |answer: Result<u32, Refusal>| answer.unwrap_or_else(|why| u32::from(why.number()));
    let (highest, heard, missing) = (figure(ledger.highest()), figure(ledger.heard()), figure(ledger.missing()));
    let runs = figure(ledger.runs().map(|runs| runs as u32));
    let (floor, given_up) = (figure(ledger.floor()), figure(ledger.given_up()));
    write!(output, "highest {highest} heard {heard} missing {missing} runs {runs} ")?;
    writeln!(output, "floor {floor} given-up {given_up}")?;
    for place in 0.. {
        let run = ledger.run(place);
        writeln!(output, "run {place} {}", shown(run))?;
        if run.is_err() {
            break;
        }
    }
    Ok(())
}

/// The ledger that a record stands for, if it can be told.
fn of_record(record: &Record) -> Option<Ledger> {
    let settled = of_ends(&record.ends)?;
    let heard = settled.heard.checked_sub(record.given_up)?;
    Some(Ledger { heard, floor: record.floor, given_up: record.given_up, ..settled })
}

/// The ledger in which all settled numbers were heard, if the ends fall and are no more than there is room for.
fn of_ends(ends: &[u32]) -> Option<Ledger> {
    let used = ends.iter().position(|&end| end == 0).unwrap_or(ends.len());
    let (ends, unused) = ends.split_at(used);
    let falling = ends.windows(2).all(|two| two[0] > two[1]);
    let highest = ends.first().copied().unwrap_or(0);
    if !falling || used > MOST_ENDS || highest > GREATEST_NUMBER || unused.iter().any(|&end| end != 0) {
        return None;
    }
    let mut ledger = Ledger { highest, heard: highest, ..Ledger::FRESH };
    // Behind the highest the ends are a run's last number and the one below its first, which is 0 if there is none.
    for run in ends.get(1..).unwrap_or(&[]).chunks(2).rev() {
        let run = Run { first: run.get(1).map_or(1, |below| below + 1), last: run[0] };
        *ledger.runs.get_mut(ledger.count)? = run;
        ledger.count += 1;
        ledger.heard -= run.length();
    }
    Some(ledger)
}
