//! The table of packed bytes, printed.

use std::io::{self, Write};

use crate::digits::table;

/// Writes a line for each high half, and in it for each low half the number of the byte, or the mark, in three columns.
pub fn tell<W: Write>(mut output: W) -> io::Result<()> {
    for (byte, number) in table().iter().enumerate() {
        let end = if byte % 16 == 15 { '\n' } else { ' ' };
        write!(output, "{number:3}{end}")?;
    }
    output.flush()
}
