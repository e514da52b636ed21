//! Times the calls of the proved library beside the second program's: reading, also of frames with a bad digit, writing, arrivals,
//! a board, a capture, the walk of a line, index values and packed digits. Prints for each a line of words parted by tabs: part, name, bytes, proved and second
//! nanoseconds.

mod arrivals;
mod board;
mod capture;
mod digits;
mod index;
mod kinds;
mod reading;
mod refused;
mod timing;
mod walking;
mod writing;

use std::process::ExitCode;
use std::time::Duration;

use timing::{Effort, Row};

const FULL: Effort = Effort { round: Duration::from_millis(20), rounds: 25, arrivals: 1_000_000, line: 20_000_000 };
const QUICK: Effort = Effort { round: Duration::from_millis(2), rounds: 7, arrivals: 20_000, line: 2_000_000 };

fn print(row: &Row) {
    println!("{}\t{}\t{:.1}\t{:.3}\t{:.3}", row.part, row.name, row.bytes, row.proved, row.second);
}

fn run(effort: Effort) -> Result<(), String> {
    let kinds = kinds::kinds()?;
    for kind in &kinds {
        print(&reading::reading(effort, kind)?);
    }
    refused::refused(effort, &kinds)?.iter().for_each(print);
    reading::alone(effort, &kinds)?.iter().for_each(print);
    for kind in &kinds {
        print(&writing::writing(effort, kind)?);
    }
    arrivals::arrivals(effort)?.iter().for_each(print);
    board::board(effort)?.iter().for_each(print);
    capture::capture(effort)?.iter().for_each(print);
    print(&walking::walking(effort, &kinds)?);
    index::index(effort)?.iter().for_each(print);
    digits::digits(effort)?.iter().for_each(print);
    Ok(())
}

fn main() -> ExitCode {
    let effort = match std::env::args().nth(1).as_deref() {
        None => FULL,
        Some("--quick") => QUICK,
        Some(_) => {
            eprintln!("bench-calls [--quick]");
            return ExitCode::from(2);
        }
    };
    match run(effort) {
        Ok(()) => ExitCode::SUCCESS,
        Err(what) => {
            eprintln!("bench-calls: {what}");
            ExitCode::FAILURE
        }
    }
}
