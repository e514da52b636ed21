//! Compares this package with the proved programs over generated lines.

use std::path::{Path, PathBuf};
use std::process::ExitCode;
use std::time::{SystemTime, UNIX_EPOCH};

use second::compare::Comparison;

const USAGE: &str = "compare [--seed N] [--frames M] [--forever] [TRIVSOME]
Makes lines of M frames (100,000) of each exchange from a seed (1), runs each proved program that TRIVSOME --help lists
(../trivsome, seen from this package) on those that it reads, or once if it reads nothing, and compares what it prints with
what this package says. Ends with 1 at the first difference, and with 100,000 frames or more also where a program is not
listed, or where an answer or a place did not occur.
--forever goes on with new seeds, the first from the clock, until it is stopped.";

struct Wanted {
    seed: Option<u64>,
    frames: usize,
    forever: bool,
    trivsome: PathBuf,
}

fn wanted() -> Option<Wanted> {
    let trivsome = Path::new(env!("CARGO_MANIFEST_DIR")).join("../trivsome");
    let mut wanted = Wanted { seed: None, frames: 100_000, forever: false, trivsome };
    let mut arguments = std::env::args().skip(1);
    while let Some(argument) = arguments.next() {
        match argument.as_str() {
            "--seed" => wanted.seed = Some(arguments.next()?.parse().ok()?),
            "--frames" => wanted.frames = arguments.next()?.parse().ok()?,
            "--forever" => wanted.forever = true,
            path if !path.starts_with('-') => wanted.trivsome = path.into(),
            _ => return None,
        }
    }
    Some(wanted)
}

fn compare(wanted: &Wanted) -> Result<(), String> {
    let comparison = Comparison::new(&wanted.trivsome)?;
    let clock = || SystemTime::now().duration_since(UNIX_EPOCH).map_or(1, |since| since.as_nanos() as u64);
    let mut seed = wanted.seed.unwrap_or_else(|| if wanted.forever { clock() } else { 1 });
    loop {
        println!("seed {seed}");
        let result = comparison.run(seed, wanted.frames);
        if !wanted.forever || result.is_err() {
            comparison.end();
            return result;
        }
        seed = seed.wrapping_add(1);
    }
}

fn main() -> ExitCode {
    let Some(wanted) = wanted() else {
        eprintln!("{USAGE}");
        return ExitCode::from(2);
    };
    match compare(&wanted) {
        Ok(()) => ExitCode::SUCCESS,
        Err(what) => {
            println!("{what}");
            ExitCode::FAILURE
        }
    }
}
