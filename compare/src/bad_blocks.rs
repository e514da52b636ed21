//! Blocks that no append leaves: faults put into a capture.

use std::ops::RangeInclusive;

use second::capture::{fletcher, BLOCK, BYTES, MOST, PLACES};
use second::random::Random;

/// Where in a block the used bytes are told, the payload and the check are.
const USED: usize = 4;
const PAYLOAD: usize = 6;
const CHECK: usize = 510;

/// Puts one kind of fault into a capture in which so many blocks are finished, or tells that it has no place for it.
type Put = fn(&mut [u8], usize, &mut Random) -> bool;

const KINDS: [(&str, Put); 15] = [
    ("another place's number", |memory, finished, random| {
        let Some(block) = finished_block(memory, finished, random) else { return false };
        let other = random.within(1..=PLACES + 1);
        number(block, other as u32)
    }),
    ("a number above all places", |memory, finished, random| {
        let Some(block) = finished_block(memory, finished, random) else { return false };
        block[random.within(0..=2)] = random.pick(&[1, 2, 128, 255]);
        seal(block)
    }),
    ("a number that is shifted", |memory, finished, random| {
        let Some(block) = finished_block(memory, finished, random) else { return false };
        let place = u32::from(block[3]);
        number(block, place << random.pick(&[8, 16, 24]))
    }),
    ("a block at another place too", |memory, finished, random| {
        if finished == 0 {
            return false;
        }
        let (from, to) = (random.within(1..=finished), random.within(1..=PLACES));
        memory.copy_within(BLOCK * (from - 1)..BLOCK * from, BLOCK * (to - 1));
        from != to
    }),
    ("a block behind an unfinished one", |memory, finished, random| {
        if finished < 2 {
            return false;
        }
        block_at(memory, random.within(1..=finished - 1))[..4].fill(0);
        true
    }),
    ("a sound block further behind", |memory, finished, random| {
        if finished + 2 > PLACES {
            return false;
        }
        let place = random.within(finished + 2..=PLACES);
        let block = block_at(memory, place);
        block.fill(0);
        (block[USED + 1], block[PAYLOAD]) = (1, random.byte());
        number(block, place as u32)
    }),
    ("nothing used", |memory, finished, random| {
        let Some(block) = finished_block(memory, finished, random) else { return false };
        block[USED..].fill(0);
        seal(block)
    }),
    ("more than 504 used", |memory, finished, random| {
        let Some(block) = finished_block(memory, finished, random) else { return false };
        let used: u16 = random.pick(&[505, 506, 511, 512, 0x8001, 0xFF00, 0xFFFF]);
        block[USED..PAYLOAD].copy_from_slice(&used.to_be_bytes());
        seal(block)
    }),
    ("bytes behind the used ones", |memory, finished, random| {
        let Some(block) = finished_block(memory, finished, random) else { return false };
        let behind = PAYLOAD + used(block)..=CHECK - 1;
        if behind.is_empty() {
            return false;
        }
        let (first, last, any) = (*behind.start(), *behind.end(), random.within(behind));
        block[random.pick(&[first, last, any])] = random.pick(&[1, 128, 255]);
        seal(block)
    }),
    ("fewer used than there are", |memory, finished, random| {
        let Some(block) = finished_block(memory, finished, random) else { return false };
        let many = used(block);
        if many < 2 || block[PAYLOAD + many - 1] == 0 {
            return false;
        }
        block[USED..PAYLOAD].copy_from_slice(&(many as u16 - 1).to_be_bytes());
        seal(block)
    }),
    ("another check", |memory, finished, random| {
        let Some(block) = finished_block(memory, finished, random) else { return false };
        block[random.within(CHECK..=BLOCK - 1)] ^= 1 << random.below(8);
        true
    }),
    ("the check's bytes in the other order", |memory, finished, random| {
        let Some(block) = finished_block(memory, finished, random) else { return false };
        block[CHECK..].reverse();
        block[CHECK] != block[CHECK + 1]
    }),
    ("255 for a sum of 0", |memory, finished, random| {
        let Some(block) = finished_block(memory, finished, random) else { return false };
        if used(block) < 2 {
            return false;
        }
        let at = PAYLOAD + random.within(0..=used(block) - 2);
        let check: [u8; 2] = random.pick(&[[255, 0], [0, 255], [255, 255]]);
        sums_of_0(block, at);
        block[CHECK..].copy_from_slice(&check);
        true
    }),
    ("another byte of a block", |memory, finished, random| {
        let Some(block) = finished_block(memory, finished, random) else { return false };
        block[random.within(0..=BLOCK - 1)] ^= 1 << random.below(8);
        true
    }),
    ("bytes of no capture", |memory, _, random| {
        let whole = 0..=BYTES - 1;
        let from = random.within(whole.clone());
        let part: RangeInclusive<usize> = if random.one_in(4) { whole } else { from..=random.within(from..=BYTES - 1) };
        memory[part].fill_with(|| random.byte());
        true
    }),
];

/// The names of all kinds of fault.
pub fn names() -> impl Iterator<Item = &'static str> {
    KINDS.iter().map(|kind| kind.0)
}

/// Puts a fault into a capture in which so many blocks are finished, and gives its name, if there was a place for it.
pub fn spoil(memory: &mut [u8], finished: usize, random: &mut Random) -> Option<&'static str> {
    let (name, put) = random.pick(&KINDS);
    put(memory, finished, random).then_some(name)
}

/// Fills every block behind so many with any bytes, but for the number, as cut appends may leave them.
pub fn tear(memory: &mut [u8], finished: usize, random: &mut Random) {
    for block in memory.chunks_exact_mut(BLOCK).skip(finished) {
        block[4..].fill_with(|| random.byte());
    }
}

fn block_at(memory: &mut [u8], place: usize) -> &mut [u8] {
    &mut memory[BLOCK * (place - 1)..BLOCK * place]
}

/// Any finished block.
fn finished_block<'a>(memory: &'a mut [u8], finished: usize, random: &mut Random) -> Option<&'a mut [u8]> {
    (finished > 0).then(|| block_at(memory, random.within(1..=finished)))
}

fn used(block: &[u8]) -> usize {
    usize::from(u16::from_be_bytes([block[USED], block[USED + 1]])).min(MOST)
}

/// Puts the check right, so that a block has only the fault that was put in.
fn seal(block: &mut [u8]) -> bool {
    let check = fletcher(&block[..CHECK]);
    block[CHECK..].copy_from_slice(&check);
    true
}

fn number(block: &mut [u8], number: u32) -> bool {
    block[..USED].copy_from_slice(&number.to_be_bytes());
    seal(block)
}

/// Makes both sums of a block 0 by two bytes next to each other. Each goes into the second sum as often as there are bytes from it
/// to the check, so that what they have to be follows.
fn sums_of_0(block: &mut [u8], at: usize) {
    block[at..=at + 1].fill(0);
    let [first, second] = fletcher(&block[..CHECK]).map(u32::from);
    let often = (CHECK - at - 1) as u32;
    let both = 255 - first;
    let one = (255 - second + (255 - often * both % 255)) % 255;
    block[at] = one as u8;
    block[at + 1] = ((both + 255 - one) % 255) as u8;
    assert_eq!(fletcher(&block[..CHECK]), [0, 0], "the sums of a block");
}
