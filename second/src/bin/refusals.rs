//! Reads standard input as a closed line and prints a JSON object for each refused frame and each run of skipped bytes.

use std::ffi::OsString;
use std::io::{self, BufWriter};
use std::process::ExitCode;

use second::derivatives::Derivatives2015;
use second::exchange::{named, usage, Named};
use second::refusals::{tell, tell_of};

fn main() -> io::Result<ExitCode> {
    let words: Vec<OsString> = std::env::args_os().skip(1).collect();
    let (input, output) = (io::stdin().lock(), BufWriter::with_capacity(64 * 1024, io::stdout().lock()));
    match named(&words) {
        Some(Named::Stock) => tell(input, output)?,
        Some(Named::Derivatives2015) => tell_of::<Derivatives2015, _, _>(input, output)?,
        None => {
            eprintln!("{}", usage("refusals"));
            return Ok(ExitCode::from(2));
        }
    }
    Ok(ExitCode::SUCCESS)
}
