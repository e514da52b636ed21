//! Format five, notices: a category, then 0 to 60 bytes of text that nobody judges.

use std::ops::RangeInclusive;

use crate::digits;
use crate::outline::GREATEST_NUMBER;
use crate::reading::Refusal;

pub const FORMAT: u8 = 5;
pub const VERSION: u8 = 1;
pub const LENGTHS: RangeInclusive<usize> = 14..=74;
pub const MOST_TEXT: usize = 60;

#[derive(Clone, Copy, Debug, PartialEq, Eq)]
pub struct Notice {
    pub number: u32,
    /// 0: general, 9: end of the general notices, 90: urgent, 99: end of the urgent ones.
    pub category: u8,
    pub text_length: usize,
    /// Zero behind the text's length.
    pub text: [u8; MOST_TEXT],
}

fn is_category(category: u8) -> bool {
    matches!(category, 0 | 9 | 90 | 99)
}

impl Notice {
    pub fn read(number: u32, body: &[u8]) -> Result<Notice, Refusal> {
        let category = digits::number(&body[..1]).ok_or(Refusal::Digit)? as u8;
        if !is_category(category) {
            return Err(Refusal::Field);
        }
        let listed = &body[1..];
        let mut text = [0; MOST_TEXT];
        text[..listed.len()].copy_from_slice(listed);
        Ok(Notice { number, category, text_length: listed.len(), text })
    }

    /// The text without the unused places.
    pub fn text(&self) -> &[u8] {
        &self.text[..self.text_length]
    }

    /// Whether every field keeps its rule and range.
    pub fn keeps_rules(&self) -> bool {
        self.number <= GREATEST_NUMBER
            && is_category(self.category)
            && self.text_length <= MOST_TEXT
            && self.text[self.text_length..].iter().all(|&byte| byte == 0)
    }

    /// The frame's length, for a message that keeps the rules.
    pub fn length(&self) -> usize {
        *LENGTHS.start() + self.text_length
    }

    /// Writes the body, for a message that keeps the rules.
    pub fn write(&self, body: &mut [u8]) {
        digits::pack(u64::from(self.category), &mut body[..1]);
        body[1..].copy_from_slice(self.text());
    }
}
