use trivsome::*;

use crate::frames::{no_frame, NOTICE};

/// Two bytes of noise, a notice, and one that is cut.
fn line() -> Vec<u8> {
    [b"AB", &NOTICE[..], &NOTICE[..5]].concat()
}

#[test]
fn an_open_line_waits() {
    let line = line();
    let mut moves = Moves::new(&line, Line::Open);
    let accepted = Answer::Accepted(Frame { format: 5, seq: 1, length: 14 });
    assert_eq!(moves.next(), Some(Move { at: 0, bytes: 1, answer: no_frame(1) }));
    assert_eq!(moves.next(), Some(Move { at: 1, bytes: 1, answer: no_frame(1) }));
    assert_eq!(moves.next(), Some(Move { at: 2, bytes: 14, answer: accepted }));
    assert_eq!(moves.next(), None);
    assert_eq!(moves.rest(), &NOTICE[..5]);
    let mut tally = Tally::default();
    assert_eq!(tally.walk(&line, Line::Open), Ok(()));
    assert_eq!(tally, Tally { accepted: 14, refused: 0, skipped: 2, waiting: 5 });
}

#[test]
fn a_closed_line_does_not() {
    let line = line();
    let mut moves = Moves::new(&line, Line::Closed);
    assert_eq!(moves.by_ref().last(), Some(Move { at: 20, bytes: 1, answer: no_frame(1) }));
    assert_eq!(moves.rest(), &[]);
    let mut tally = Tally { accepted: 1, refused: 2, skipped: 3, waiting: 4 };
    assert_eq!(tally.walk(&line, Line::Closed), Ok(()));
    assert_eq!(tally, Tally { accepted: 15, refused: 2, skipped: 10, waiting: 0 });
}

#[test]
fn a_tally_that_cannot_hold_the_line_stays() {
    let full = Tally { refused: u64::MAX - 20, waiting: 9, ..Tally::default() };
    let mut tally = full;
    assert_eq!(tally.walk(&line(), Line::Open), Err(TooMuch));
    assert_eq!(tally, full);
    assert_eq!(tally.walk(&line()[..20], Line::Open), Ok(()));
    assert_eq!(tally, Tally { accepted: 14, refused: u64::MAX - 20, skipped: 2, waiting: 4 });
}
