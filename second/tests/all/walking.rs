//! The walk over open and closed lines, and its tally.

use crate::build::*;
use second::walk::{walk, Kind, Line, Tally, TooMuch};

fn moves(bytes: &[u8], line: Line) -> Vec<(usize, u8, usize, Kind)> {
    walk(bytes, line).map(|step| (step.place, step.answer.number(), step.bytes, step.kind)).collect()
}

fn tallied(bytes: &[u8], line: Line) -> [u64; 4] {
    let mut tally = Tally::default();
    assert_eq!(tally.walk(bytes, line), Ok(()));
    let figures = [tally.accepted, tally.refused, tally.skipped, tally.waiting];
    assert_eq!(figures.iter().sum::<u64>(), bytes.len() as u64);
    figures
}

#[test]
fn moves_of_each_kind() {
    // Noise, a notice, a refused notice, a cut notice.
    let refused = frame(FIVE, &[0x01]);
    let line = [hex("41 1B 42"), hex(NOTICE), refused, hex("1B 00 14 01 05")].concat();
    let shared = [
        (0, 1, 1, Kind::Skipped),
        (1, 3, 1, Kind::Skipped),
        (2, 1, 1, Kind::Skipped),
        (3, 0, 14, Kind::Accepted),
        (17, 13, 14, Kind::Refused),
    ];
    let mut open = shared.to_vec();
    open.push((31, 2, 5, Kind::Waiting));
    assert_eq!(moves(&line, Line::Open), open);
    assert_eq!(tallied(&line, Line::Open), [14, 14, 3, 5]);
    let mut closed = shared.to_vec();
    closed.push((31, 2, 1, Kind::Skipped));
    closed.extend((32..36).map(|place| (place, 1, 1, Kind::Skipped)));
    assert_eq!(moves(&line, Line::Closed), closed);
    assert_eq!(tallied(&line, Line::Closed), [14, 14, 8, 0]);
    assert_eq!(moves(&[], Line::Open), []);
    assert_eq!(tallied(&[], Line::Open), [0, 0, 0, 0]);
}

#[test]
fn a_frame_under_a_false_length_is_found() {
    let line = [hex("1B 00 40"), hex(NOTICE), vec![b'.'; 40]].concat();
    let found: Vec<_> = moves(&line, Line::Closed).into_iter().filter(|step| step.1 == 0).collect();
    assert_eq!(found, [(3, 0, 14, Kind::Accepted)]);
    // But on an open line whose false length is not there yet, all waits.
    assert_eq!(moves(&line[..30], Line::Open), [(0, 2, 30, Kind::Waiting)]);
    // A wrong check byte moves one byte on, a refusal the whole frame.
    let mut around = frame(FIVE, &[hex("00"), hex(NOTICE)].concat());
    assert_eq!(moves(&around, Line::Closed), [(0, 0, 28, Kind::Accepted)]);
    around[25] ^= 1;
    assert_eq!(moves(&around, Line::Closed)[11], (11, 0, 14, Kind::Accepted));
    assert_eq!(moves(&frame(FIVE, &[hex("01"), hex(NOTICE)].concat()), Line::Closed), [(0, 13, 28, Kind::Refused)]);
}

#[test]
fn a_tally_moves_on() {
    let mut tally = Tally { accepted: 100, refused: 200, skipped: 300, waiting: 400 };
    let line = [hex("41"), hex(NOTICE), hex("1B 00")].concat();
    assert_eq!(tally.walk(&line, Line::Open), Ok(()));
    assert_eq!(tally, Tally { accepted: 114, refused: 200, skipped: 301, waiting: 2 });
    assert_eq!(tally.walk(&[], Line::Open), Ok(()));
    assert_eq!(tally, Tally { accepted: 114, refused: 200, skipped: 301, waiting: 0 });
}

#[test]
fn a_tally_that_is_too_much() {
    // 16 if a figure and the line's length pass the greatest number, though none of the line would be added to it.
    let line = hex(NOTICE);
    let most = u64::MAX - 14;
    for figure in 0..3 {
        for (start, expected) in [(most, Ok(())), (most + 1, Err(TooMuch)), (u64::MAX, Err(TooMuch))] {
            let mut figures = [0; 3];
            figures[figure] = start;
            let before = Tally { accepted: figures[0], refused: figures[1], skipped: figures[2], waiting: 5 };
            let mut tally = before;
            assert_eq!(tally.walk(&line, Line::Closed), expected);
            if expected.is_err() {
                assert_eq!(tally, before);
            } else {
                assert_eq!(tally, Tally { accepted: before.accepted + 14, waiting: 0, ..before });
            }
        }
    }
    // The waiting figure is replaced, and never too much.
    let mut tally = Tally { waiting: u64::MAX, ..Tally::default() };
    assert_eq!(tally.walk(&line, Line::Closed), Ok(()));
    assert_eq!(tally, Tally { accepted: 14, ..Tally::default() });
    let mut full = Tally { accepted: u64::MAX, refused: u64::MAX, skipped: u64::MAX, waiting: 1 };
    assert_eq!(full.walk(&[], Line::Open), Ok(()));
    assert_eq!(TooMuch::NUMBER, 16);
}
