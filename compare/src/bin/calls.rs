//! Compares the second program with the proved library, call by call.

use std::process::ExitCode;
use std::time::{SystemTime, UNIX_EPOCH};

const USAGE: &str = "calls [--seed N] [--frames M] [--forever]
Makes lines of M frames (100,000) of each exchange from a seed (1), as many arrivals and messages for boards, and payloads for
captures, calls the proved library and the second program on them, on the good frames with a bad digit put into each, and on every
packed byte, and compares what they answer and what they leave in lent memory. Ends with 1 at the first difference.
--forever goes on with new seeds, the first from the clock, until it is stopped.";

struct Wanted {
    seed: Option<u64>,
    frames: usize,
    forever: bool,
}

fn wanted() -> Option<Wanted> {
    let mut wanted = Wanted { seed: None, frames: 100_000, forever: false };
    let mut arguments = std::env::args().skip(1);
    while let Some(argument) = arguments.next() {
        match argument.as_str() {
            "--seed" => wanted.seed = Some(arguments.next()?.parse().ok()?),
            "--frames" => wanted.frames = arguments.next()?.parse().ok()?,
            "--forever" => wanted.forever = true,
            _ => return None,
        }
    }
    Some(wanted)
}

fn compare(wanted: &Wanted) -> Result<(), String> {
    let clock = || SystemTime::now().duration_since(UNIX_EPOCH).map_or(1, |since| since.as_nanos() as u64);
    let mut seed = wanted.seed.unwrap_or_else(|| if wanted.forever { clock() } else { 1 });
    loop {
        println!("seed {seed}");
        compare::compare(seed, wanted.frames).map_err(|what| format!("seed {seed}, {what}"))?;
        println!("the calls agree");
        if !wanted.forever {
            return Ok(());
        }
        seed = seed.wrapping_add(1);
    }
}

fn main() -> ExitCode {
    let Some(wanted) = wanted() else {
        eprintln!("{USAGE}");
        return ExitCode::from(2);
    };
    match compare(&wanted) {
        Ok(()) => ExitCode::SUCCESS,
        Err(what) => {
            println!("{what}");
            ExitCode::FAILURE
        }
    }
}
