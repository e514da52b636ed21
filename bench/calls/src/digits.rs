//! Packed bytes read one by one, by the call and by the table that is taken once; and the table filled. The second program works
//! a byte out of its halves.

use std::hint::black_box;

use second::digits::{table, two_digits, MARK};
use second::random::Random;
use trivsome::{digit_table, BAD_DIGIT};

use crate::timing::{both, Effort, Row};

const PART: &str = "digits";

/// How many bytes are read, and how many tables filled.
const BYTES: usize = 4096;
const TABLES: usize = 256;

pub fn digits(effort: Effort) -> Result<Vec<Row>, String> {
    let taken = digit_table();
    agree(&taken).map_err(|what| format!("digits: {what}"))?;
    let mut random = Random::new(14);
    let bytes: Vec<u8> = (0..BYTES).map(|_| (random.below(10) << 4 | random.below(10)) as u8).collect();
    let by_call = || each(&bytes, |byte| trivsome::two_digits(byte).unwrap_or(BAD_DIGIT));
    let by_table = || each(&bytes, |byte| taken[usize::from(byte)]);
    let second = || each(&bytes, |byte| two_digits(byte).unwrap_or(MARK));
    let row = |name: &str, bytes, (proved, second)| Row { part: PART, name: name.into(), bytes, proved, second };
    Ok(vec![
        row("a byte, by the call", 1.0, both(effort, BYTES, by_call, second)?),
        row("a byte, by the table taken once", 1.0, both(effort, BYTES, by_table, second)?),
        row("the table filled", 256.0, both(effort, TABLES, || filled(digit_table), || filled(table))?),
    ])
}

/// The sum of what bytes are read as. Each is read alone: the compiler cannot take several together.
fn each(bytes: &[u8], read: impl Fn(u8) -> u8) -> u64 {
    let mut sum = 0;
    for &byte in black_box(bytes) {
        sum += u64::from(read(black_box(byte)));
    }
    sum
}

/// The sum of an entry of each of the tables.
fn filled(fill: impl Fn() -> [u8; 256]) -> u64 {
    let mut sum = 0;
    for place in 0..TABLES {
        let mut table = fill();
        black_box(&mut table);
        sum += u64::from(table[place % table.len()]);
    }
    sum
}

/// Both give the same of every byte, and have the same table.
fn agree(taken: &[u8; 256]) -> Result<(), String> {
    for byte in 0..=255 {
        let (own, other) = (trivsome::two_digits(byte), two_digits(byte));
        if own != other {
            return Err(format!("{byte:02X} is {own:?} against {other:?}"));
        }
    }
    let other = table();
    if *taken != other {
        return Err(format!("the table is {taken:?} against {other:?}"));
    }
    Ok(())
}
