//! Packed digits: every byte read alone and by the table, which is filled over different memory.

use std::fmt;

use second::digits::{table, two_digits, MARK};
use trivsome::raw;

use crate::same::differ;

/// What a table's memory holds before it is filled. The first is no entry of it.
const BEFORE: [u8; 2] = [0xA5, 0x00];

/// What occurred.
#[derive(Default)]
pub struct Digits {
    /// Bytes with two digits, and those with a bad one.
    bytes: [u64; 2],
    tables: u64,
}

impl Digits {
    /// Compares all bytes.
    pub fn all(&mut self) -> Result<(), String> {
        for byte in 0..=255 {
            self.byte(byte).map_err(|what| format!("byte {byte:02X}: {what}"))?;
        }
        for before in BEFORE {
            let mut filled = [before; 256];
            raw::digit_table(&mut filled);
            self.table(&filled).map_err(|what| format!("a table filled over {before:02X}: {what}"))?;
        }
        self.table(&trivsome::digit_table())
    }

    fn byte(&mut self, byte: u8) -> Result<(), String> {
        let (proved, second) = (trivsome::two_digits(byte), two_digits(byte));
        if proved != second {
            return Err(differ("the number", &proved, &second));
        }
        let (outcome, expected) = (raw::two_digits(byte), second.unwrap_or(MARK));
        if outcome != expected {
            return Err(differ("the call's answer", &outcome, &expected));
        }
        self.bytes[usize::from(second.is_none())] += 1;
        Ok(())
    }

    fn table(&mut self, proved: &[u8; 256]) -> Result<(), String> {
        self.tables += 1;
        let second = table();
        match (0..=255_u8).zip(proved.iter().zip(&second)).find(|(_, (own, other))| own != other) {
            None => Ok(()),
            Some((byte, (own, other))) => Err(differ(&format!("the entry of {byte:02X}"), own, other)),
        }
    }

    /// What did not occur.
    pub fn missed(&self) -> Option<String> {
        let counts = [("a byte with two digits", self.bytes[0]), ("a byte with a bad digit", self.bytes[1])];
        counts.iter().find(|(_, times)| *times == 0).map(|(name, _)| name.to_string())
    }
}

impl fmt::Display for Digits {
    fn fmt(&self, f: &mut fmt::Formatter) -> fmt::Result {
        let [two, bad] = self.bytes;
        write!(f, "bytes with two digits:{two} with a bad one:{bad}; tables:{}", self.tables)
    }
}
