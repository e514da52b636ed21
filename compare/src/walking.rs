//! Walks: every move over a line, open and closed, and the tally.

use std::fmt;
use std::marker::PhantomData;

use second::random::Random;
use second::seen::around_of;
use second::walk::{walk_of, Kind};

use crate::exchange::Walked;
use crate::same::{above, differ, moved, outcome, packed, told};

/// How many pieces of a line are walked beside the whole of it, and their most bytes.
const PIECES: usize = 20;
const PIECE: usize = 3000;

/// What occurred on the lines of an exchange.
pub struct Walks<E> {
    exchange: PhantomData<E>,
    lines: u64,
    moves: u64,
    waits: u64,
    /// Moves that told the place of a bad half, with 3, 6 and 11.
    bad_halves: [u64; 3],
    /// Walks that moved a tally on, and those refused with 16.
    tallies: [u64; 2],
}

impl<E> Default for Walks<E> {
    fn default() -> Walks<E> {
        Walks { exchange: PhantomData, lines: 0, moves: 0, waits: 0, bad_halves: [0; 3], tallies: [0; 2] }
    }
}

impl<E: Walked> Walks<E> {
    /// Compares the walks over a line and some pieces of it.
    pub fn line(&mut self, line: &[u8], random: &mut Random) -> Result<(), String> {
        self.walk(line, random)?;
        for _ in 0..PIECES {
            let from = random.within(0..=line.len());
            let length = random.below(PIECE as u64) as usize;
            let piece = &line[from..line.len().min(from + length)];
            self.walk(piece, random).map_err(|what| format!("from {from}, {} bytes: {what}", piece.len()))?;
        }
        Ok(())
    }

    fn walk(&mut self, line: &[u8], random: &mut Random) -> Result<(), String> {
        for (ours, theirs) in
            [(trivsome::Line::Open, second::walk::Line::Open), (trivsome::Line::Closed, second::walk::Line::Closed)]
        {
            let within = |what: String| format!("walked as {theirs:?}: {what}");
            self.lines += 1;
            self.moves(line, ours, theirs).map_err(within)?;
            self.tally(line, ours, theirs, random).map_err(within)?;
        }
        Ok(())
    }

    fn moves(&mut self, line: &[u8], ours: trivsome::Line, theirs: second::walk::Line) -> Result<(), String> {
        let mut proved = E::moves(line, ours);
        for step in walk_of::<E>(line, theirs) {
            let within = |what: String| format!("place {}: {what}\n{}", step.place, around_of::<E>(line, step.place));
            self.moves += 1;
            let waiting = step.kind == Kind::Waiting;
            let own = proved.next();
            let told_own = own.map(|own| (own.at, own.bytes, answer_of(own.answer)));
            let expected = (!waiting).then(|| (step.place, step.bytes, outcome(&step.answer)));
            if told_own != expected {
                let words = |step: Option<(usize, usize, u64)>| {
                    step.map(|(place, bytes, answer)| format!("at {place} past {bytes} bytes, {}", told(answer)))
                };
                return Err(within(differ("the move", &words(told_own), &words(expected))));
            }
            let bytes = if waiting { 0 } else { step.bytes };
            let (outcome, expected) =
                (E::move_at(line, step.place, ours == trivsome::Line::Closed), moved(&step.answer, bytes));
            if outcome != expected {
                return Err(within(differ("the move's outcome", &told(outcome), &told(expected))));
            }
            if step.answer.place().is_some() {
                self.bad_halves[match step.answer.number() {
                    3 => 0,
                    6 => 1,
                    _ => 2,
                }] += 1;
            }
            if waiting {
                self.waits += 1;
                if proved.rest().len() != step.bytes {
                    return Err(within(differ("what waits", &proved.rest().len(), &step.bytes)));
                }
            }
        }
        for place in [line.len(), line.len() + 1, usize::MAX] {
            let outcome = E::move_at(line, place, ours == trivsome::Line::Closed);
            if outcome != 2 {
                return Err(format!("behind {} bytes, at {place}, there is a move: {}", line.len(), told(outcome)));
            }
        }
        match proved.next() {
            None => Ok(()),
            Some(more) => {
                Err(format!("a move more than the second program's: {more:?}\n{}", around_of::<E>(line, more.at)))
            }
        }
    }

    fn tally(
        &mut self,
        line: &[u8],
        ours: trivsome::Line,
        theirs: second::walk::Line,
        random: &mut Random,
    ) -> Result<(), String> {
        let largest = u64::MAX - line.len() as u64;
        let mut figure = || match random.below(8) {
            0 => largest.wrapping_add(random.below(3)).wrapping_sub(1),
            1 => largest,
            2 => random.any() >> random.below(64),
            _ => random.below(1000),
        };
        let [accepted, refused, skipped] = [figure(), figure(), figure()];
        let waiting = random.any() >> random.below(64);
        let mut proved = trivsome::Tally { accepted, refused, skipped, waiting };
        let mut second = second::walk::Tally { accepted, refused, skipped, waiting };
        let before = second;
        let mut again = [accepted, refused, skipped, waiting];
        let outcome = E::walk_figures(&mut again, line, ours == trivsome::Line::Closed);
        let answers = (E::walk(&mut proved, line, ours).is_ok(), second.walk_of::<E>(line, theirs).is_ok());
        let figures = (
            [proved.accepted, proved.refused, proved.skipped, proved.waiting],
            [second.accepted, second.refused, second.skipped, second.waiting],
        );
        let number = |is_ok: bool| if is_ok { 0 } else { second::walk::TooMuch::NUMBER };
        if outcome != u64::from(number(answers.1)) || again != figures.1 {
            let (proved, second) = ((outcome, again), (number(answers.1), figures.1));
            return Err(format!("from {before:?}, {} bytes: {}", line.len(), differ("the tally", &proved, &second)));
        }
        if answers.0 != answers.1 || figures.0 != figures.1 {
            let (proved, second) = ((number(answers.0), figures.0), (number(answers.1), figures.1));
            return Err(format!("from {before:?}, {} bytes: {}", line.len(), differ("the tally", &proved, &second)));
        }
        self.tallies[usize::from(!answers.0)] += 1;
        Ok(())
    }

    /// What did not occur.
    pub fn missed(&self) -> Option<String> {
        let counts = [self.waits, self.tallies[0], self.tallies[1]];
        let half = self.bad_halves.contains(&0).then(|| "a move that tells the bad half of 3, 6 or 11".into());
        half.or(counts.contains(&0).then(|| "a wait, or a tally's 0 or 16".into()))
    }
}

/// A move's answer as one number, as a reading has it.
fn answer_of(answer: trivsome::Answer) -> u64 {
    match answer {
        trivsome::Answer::Accepted(frame) => packed(0, frame.format, frame.length, frame.seq),
        trivsome::Answer::NoFrame { number, bad_half } => packed(number, 0, 0, above(bad_half.map(usize::from))),
        trivsome::Answer::Refused { number, length, bad_half } => {
            packed(number, 0, length, above(bad_half.map(usize::from)))
        }
    }
}

impl<E> fmt::Display for Walks<E> {
    fn fmt(&self, f: &mut fmt::Formatter) -> fmt::Result {
        let [moved, refused] = self.tallies;
        let [length, header, body] = self.bad_halves;
        write!(f, "{} lines and pieces, {} moves, {} waits; ", self.lines, self.moves, self.waits)?;
        write!(f, "bad halves 3:{length} 6:{header} 11:{body}; tallies 0:{moved} 16:{refused}")
    }
}
