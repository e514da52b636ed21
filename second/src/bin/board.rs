//! Reads standard input as a closed line and prints the last quote of each stock.

use std::io::{self, BufWriter};

fn main() -> io::Result<()> {
    second::board::tell(io::stdin().lock(), BufWriter::with_capacity(64 * 1024, io::stdout().lock()))
}
