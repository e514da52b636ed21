//! The gaps of a closed line: the ledger over its accepted frames of format six, each of which is an arrival. What it tells
//! is a JSON object a line, without blanks.

use std::io::{self, Read, Write};

use crate::ledger::{Arrival, Ledger, Refusal};
use crate::pieces::each_move;
use crate::reading::Message;

/// What is done about a number for which the ledger has no room.
#[derive(Clone, Copy, Debug, PartialEq, Eq)]
pub enum WhenFull {
    /// It is refused.
    Refuse,
    /// The lowest missing run is given up, and the number arrives again.
    GiveUp,
}

/// The refusals that are told, in the order of their answers.
const REFUSALS: [Refusal; 3] = [Refusal::Number, Refusal::Full, Refusal::Floor];

/// Records that a number has come, and makes room for it where it is wanted.
pub fn hear(ledger: &mut Ledger, number: u32, when_full: WhenFull) -> Result<Arrival, Refusal> {
    let mut answer = ledger.arrival(number);
    while when_full == WhenFull::GiveUp && answer == Err(Refusal::Full) {
        ledger.give_up()?;
        answer = ledger.arrival(number);
    }
    answer
}

/// Reads the input to its end and writes the missing runs, the refusals that occurred, and the figures.
pub fn tell<R: Read, W: Write>(input: R, mut output: W, when_full: WhenFull) -> io::Result<()> {
    let mut ledger = Ledger::FRESH;
    let mut times: [u64; 3] = [0; 3];
    each_move(input, |_, answer, _| {
        if let Some(Message::Six(quote)) = answer.message() {
            if let Err(why) = hear(&mut ledger, quote.number, when_full) {
                let place = REFUSALS.iter().position(|refusal| *refusal == why);
                times[place.expect("a ledger of arrivals and give-ups is never refused with 20")] += 1;
            }
        }
        Ok(())
    })?;
    for run in &ledger.runs[..ledger.count] {
        writeln!(output, "{{\"first\":{},\"last\":{},\"count\":{}}}", run.first, run.last, run.length())?;
    }
    for (refusal, times) in REFUSALS.iter().zip(times) {
        if times > 0 {
            writeln!(output, "{{\"refused\":{},\"count\":{times}}}", refusal.number())?;
        }
    }
    let Ledger { highest, heard, floor, given_up, .. } = ledger;
    let missing = highest - heard - given_up;
    write!(output, "{{\"highest\":{highest},\"heard\":{heard},\"missing\":{missing},")?;
    writeln!(output, "\"floor\":{floor},\"given_up\":{given_up}}}")?;
    output.flush()
}
