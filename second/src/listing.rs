//! The listing of a closed line: a row for each frame and for each run of skipped bytes, then the totals.

use std::io::{self, Read, Write};

use crate::exchange::{Exchange, Shown, Stock};
use crate::pieces::each_move_of;
use crate::reading::Answer;

/// A run of skipped bytes that may go on.
struct Run {
    at: u64,
    reason: u8,
    bytes: u64,
}

/// Reads a line of the stock exchange to its end and writes its listing.
pub fn list<R: Read, W: Write>(input: R, output: W) -> io::Result<()> {
    list_of::<Stock, R, W>(input, output)
}

/// The same for a line of any exchange.
pub fn list_of<E: Exchange, R: Read, W: Write>(input: R, mut output: W) -> io::Result<()> {
    let (mut accepted, mut refused, mut skipped) = (0, 0, 0);
    let mut run: Option<Run> = None;
    writeln!(output, "at,answer,bytes,format,seq")?;
    each_move_of::<E, _, _>(input, |at, answer, bytes| {
        let bytes = bytes.len() as u64;
        match answer {
            Answer::Accepted { message, .. } => {
                end_run(&mut run, &mut output)?;
                let (format, number) = message.listed();
                writeln!(output, "{at},0,{bytes},{format},{number}")?;
                accepted += bytes;
            }
            Answer::Refused { why, .. } => {
                end_run(&mut run, &mut output)?;
                writeln!(output, "{at},{},{bytes},-,-", *why as u8)?;
                refused += bytes;
            }
            Answer::NoFrame { why, .. } => {
                match &mut run {
                    Some(run) => run.bytes += bytes,
                    None => run = Some(Run { at, reason: *why as u8, bytes }),
                }
                skipped += bytes;
            }
        }
        Ok(())
    })?;
    end_run(&mut run, &mut output)?;
    writeln!(output, "total,{accepted},{refused},{skipped}")?;
    output.flush()
}

/// Writes the row of a run that goes no further.
fn end_run<W: Write>(run: &mut Option<Run>, output: &mut W) -> io::Result<()> {
    if let Some(Run { at, reason, bytes }) = run.take() {
        writeln!(output, "{at},{reason},{bytes},-,-")?;
    }
    Ok(())
}
