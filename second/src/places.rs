//! Where a bad digit is: the place of the first bad half, counted in halves from the frame's first byte. Byte i, from 0, has
//! the halves 2i and 2i + 1. The fields are those of the layouts in docs/RULES.md, and a half is judged here on its own.
//!
//! Nothing here is run while all digits are good.

use crate::reading::{NoFrame, Refusal};

/// A field 9(n) of a frame: its first byte, from 0, and n. With an odd n its first half is no digit and has to be 0.
#[derive(Clone, Copy)]
pub(crate) struct Field {
    at: usize,
    digits: usize,
}

/// Digits of a price and of a quantity, and the bytes of the two together.
const PRICE: usize = 9;
const QUANTITY: usize = 8;
const PAIR: usize = 9;

/// The first byte of a body.
const BODY: usize = 10;

impl Field {
    pub(crate) const fn new(at: usize, digits: usize) -> Field {
        Field { at, digits }
    }

    /// The first bad half of the field.
    pub(crate) fn bad(self, frame: &[u8]) -> Option<usize> {
        let unused = self.digits % 2;
        let first = 2 * self.at;
        let greatest = |place: usize| if place < first + unused { 0 } else { 9 };
        (first..first + unused + self.digits).find(|&place| half(frame, place) > greatest(place))
    }
}

fn half(frame: &[u8], place: usize) -> u8 {
    let byte = frame[place / 2];
    if place % 2 == 1 {
        byte & 0x0F
    } else {
        byte >> 4
    }
}

/// The place that goes with an answer without a frame: that of a bad digit in the length.
pub fn of_no_frame(why: NoFrame, bytes: &[u8]) -> Option<usize> {
    match why {
        NoFrame::Length => in_length(bytes),
        NoFrame::NotAStart | NoFrame::TooFewBytes | NoFrame::End | NoFrame::Check => None,
    }
}

/// The place that goes with the refusal of a frame.
pub fn of_refusal(why: Refusal, frame: &[u8]) -> Option<usize> {
    match why {
        Refusal::HeaderDigit => in_header(frame),
        Refusal::Digit => in_body(frame),
        _ => None,
    }
}

#[cold]
fn in_length(bytes: &[u8]) -> Option<usize> {
    Field::new(1, 4).bad(bytes)
}

/// Business, format, version and number.
#[cold]
fn in_header(frame: &[u8]) -> Option<usize> {
    first_bad(frame, [(3, 2), (4, 2), (5, 2), (6, 8)].map(|(at, digits)| Field::new(at, digits)))
}

#[cold]
fn in_body(frame: &[u8]) -> Option<usize> {
    match frame[4] {
        0x05 => Field::new(BODY, 2).bad(frame),
        0x06 => first_bad(frame, quote(frame[BODY + 12])),
        0x12 => first_bad(frame, prices()),
        0x19 => first_bad(frame, [Field::new(BODY + 6, 6), Field::new(BODY + 9, 6)]),
        _ => None,
    }
}

/// The first bad half of fields that are given in the order of the frame.
pub(crate) fn first_bad(frame: &[u8], fields: impl IntoIterator<Item = Field>) -> Option<usize> {
    fields.into_iter().find_map(|field| field.bad(frame))
}

/// Format six: time and total, then the pairs that the reveal byte says.
fn quote(reveal: u8) -> impl Iterator<Item = Field> {
    let pairs = usize::from(reveal >> 7) + usize::from(reveal >> 4 & 7) + usize::from(reveal >> 1 & 7);
    let pair = |place: usize| {
        let at = BODY + 19 + PAIR * place;
        [Field::new(at, PRICE), Field::new(at + 5, QUANTITY)]
    };
    [Field::new(BODY + 6, 12), Field::new(BODY + 15, QUANTITY)].into_iter().chain((0..pairs).flat_map(pair))
}

/// Format twelve: the count, then four prices, total and time of all ten slots.
fn prices() -> impl Iterator<Item = Field> {
    let slot = |place: usize| {
        let at = BODY + 1 + 36 * place;
        let fields = [(6, PRICE), (11, PRICE), (16, PRICE), (21, PRICE), (26, QUANTITY), (30, 12)];
        fields.map(|(offset, digits)| Field::new(at + offset, digits))
    };
    std::iter::once(Field::new(BODY, 2)).chain((0..10).flat_map(slot))
}
