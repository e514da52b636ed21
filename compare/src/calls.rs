//! One comparison: every packed byte, and lines read, bad digits put into their frames, messages written, lines walked, numbers
//! recorded, quotes kept and payloads appended to captures, all from one seed; and the same of lines and index values of the
//! derivatives exchange.

use second::derivatives::{self, Derivatives2015};
use second::exchange::Stock;
use second::generate::Generator;
use second::random::Random;

use crate::arrivals::Arrivals;
use crate::bad_halves::BadHalves;
use crate::board::Boards;
use crate::capture::Captures;
use crate::digits::Digits;
use crate::index::Indexes;
use crate::reading::Readings;
use crate::walking::Walks;
use crate::writing::Writings;

/// The most frames of one line, and how many short lines there are behind each.
const LINE: usize = 5000;
const SHORT_LINES: usize = 50;

/// For so many frames there is an append to a capture, which takes longer: each call looks at all of 65,536 bytes.
const FRAMES_TO_AN_APPEND: usize = 40;

/// From so many frames on everything that is counted has to occur.
const ENOUGH: usize = 100_000;

/// Compares over all packed bytes, so many frames, some short lines, as many arrivals and messages on boards, and appends to
/// captures. Prints a line for each part, or gives the first difference.
pub fn compare(seed: u64, frames: usize) -> Result<(), String> {
    let mut digits = Digits::default();
    digits.all()?;
    println!("digits: {digits}");
    let mut generator = Generator::new(seed);
    let mut random = Random::new(seed.rotate_left(32));
    let (mut readings, mut writings, mut walks) = (Readings::default(), Writings::default(), Walks::<Stock>::default());
    let (mut boards, mut other) = (Boards::default(), Random::new(seed.rotate_left(16)));
    let (mut bad_halves, mut bad) = (BadHalves::new(), Random::new(seed.rotate_left(48)));
    let mut lines = 0;
    for start in (0..frames).step_by(LINE) {
        for frames in line_lengths(frames - start) {
            let line = generator.line(frames);
            lines += 1;
            let within = |what: String| format!("line {lines}: {what}");
            let accepted = readings.line(&line).map_err(within)?;
            bad_halves.line(&line, &accepted, &mut bad).map_err(within)?;
            writings.line(&line, &accepted, &mut random).map_err(within)?;
            walks.line(&line, &mut random).map_err(within)?;
            boards.line(&accepted, &mut other).map_err(within)?;
        }
    }
    println!("readings: {frames} frames in {lines} lines, {readings}");
    println!("bad halves: {bad_halves}");
    println!("writings: {writings}");
    println!("walks: {walks}");
    let index_missed = index_values(seed, frames)?;
    let mut arrivals = Arrivals::default();
    arrivals.series(&mut random, frames)?;
    println!("ledger: {arrivals}");
    boards.series(&mut other, frames)?;
    println!("boards: {boards}");
    let mut captures = Captures::default();
    captures.series(&mut Random::new(seed.rotate_left(8)), frames / FRAMES_TO_AN_APPEND)?;
    println!("captures: {captures}");
    let of_lines = readings.missed().or(bad_halves.missed()).or(writings.missed()).or(walks.missed());
    match digits.missed().or(of_lines).or(index_missed).or(arrivals.missed()).or(boards.missed()).or(captures.missed())
    {
        Some(what) if frames >= ENOUGH => Err(format!("{what} did not occur")),
        _ => Ok(()),
    }
}

/// The frames of the lines that are made of so many: one long line, and short ones.
fn line_lengths(left: usize) -> impl Iterator<Item = usize> {
    std::iter::once(LINE.min(left)).chain((1..=SHORT_LINES).map(|short| 1 + short % 10))
}

/// Compares over as many frames of the derivatives exchange. Gives what did not occur.
fn index_values(seed: u64, frames: usize) -> Result<Option<String>, String> {
    let mut generator = derivatives::generate::Generator::new(seed);
    let mut random = Random::new(seed.rotate_left(24));
    let (mut indexes, mut walks) = (Indexes::default(), Walks::<Derivatives2015>::default());
    let mut lines = 0;
    for start in (0..frames).step_by(LINE) {
        for frames in line_lengths(frames - start) {
            let line = generator.line(frames);
            lines += 1;
            let within = |what: String| format!("line {lines} of the derivatives exchange: {what}");
            indexes.line(&line, &mut random).map_err(within)?;
            walks.line(&line, &mut random).map_err(within)?;
        }
    }
    println!("index values: {frames} frames in {lines} lines, {indexes}");
    println!("walks over them: {walks}");
    Ok(indexes.missed().or(walks.missed()))
}
