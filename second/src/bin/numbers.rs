//! Reads series of arrivals and give-ups from standard input, one a line, and prints what a ledger says of them.

use std::io::{self, BufWriter};

fn main() -> io::Result<()> {
    second::numbers::tell(io::stdin().lock(), BufWriter::with_capacity(64 * 1024, io::stdout().lock()))
}
