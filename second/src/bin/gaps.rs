//! Reads standard input as a closed line and prints which numbers of format six are missing.

use std::ffi::OsString;
use std::io::{self, BufWriter};
use std::process::ExitCode;

use second::gaps::{tell, WhenFull};

const USAGE: &str = "usage: gaps [give-up]
give-up: where a new gap finds no room, the oldest one is given up";

/// What the words behind the program's name ask for.
fn wanted(words: &[OsString]) -> Option<WhenFull> {
    match words {
        [] => Some(WhenFull::Refuse),
        [word] if word == "give-up" => Some(WhenFull::GiveUp),
        _ => None,
    }
}

fn main() -> io::Result<ExitCode> {
    let words: Vec<OsString> = std::env::args_os().skip(1).collect();
    let Some(when_full) = wanted(&words) else {
        eprintln!("{USAGE}");
        return Ok(ExitCode::from(2));
    };
    tell(io::stdin().lock(), BufWriter::with_capacity(64 * 1024, io::stdout().lock()), when_full)?;
    Ok(ExitCode::SUCCESS)
}
