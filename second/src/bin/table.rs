//! Prints the table of packed bytes.

use std::io::{self, BufWriter};

fn main() -> io::Result<()> {
    second::table::tell(BufWriter::new(io::stdout().lock()))
}
