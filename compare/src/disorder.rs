//! Boards that no calls left: faults put into a board's heads and cells.

use second::board::ROWS;
use second::random::Random;
use second::units::{Code, CODE_ZERO};

use crate::rows::{Numbers, SHOWN, TIME};

/// Puts a fault into the row at a place; some take codes that stocks have.
type Put = fn(&mut Numbers, usize, &[Code], &mut Random);

/// What stands in a head above the code.
const MARKS: u64 = 0xFFFF << 48;

const KINDS: [(&str, Put); 18] = [
    ("rows of one code", |numbers, place, _, random| {
        let other = random.within(0..=ROWS - 1);
        numbers.heads[place] = numbers.heads[place] & MARKS | numbers.heads[other] & !MARKS;
    }),
    ("another row of a stock", |numbers, place, codes, random| put_code(numbers, place, &random.pick(codes))),
    ("codes that begin alike", |numbers, place, codes, random| {
        let mut code = random.pick(codes);
        code[4..].fill_with(|| random.pick(b" 1A~"));
        put_code(numbers, place, &code);
    }),
    ("a free row that is not empty", |numbers, place, _, _| {
        numbers.heads[place] &= MARKS;
        numbers.cells(place)[SHOWN] |= 0x80;
    }),
    ("many free rows", |numbers, place, _, random| {
        let step = random.within(1..=5);
        numbers.heads[..=place].iter_mut().step_by(step).for_each(|head| *head &= MARKS);
    }),
    ("no free row", |numbers, _, _, random| {
        numbers.heads.iter_mut().filter(|head| **head & !MARKS == 0).for_each(|head| *head |= 1 + random.below(1 << 48))
    }),
    ("the code 000000", |numbers, place, _, _| put_code(numbers, place, &CODE_ZERO)),
    ("a code that no stock has", |numbers, place, codes, random| {
        let mut code = random.pick(codes);
        code[random.within(0..=5)] = random.pick(&[0, 27, 31, 127, 128, 255]);
        put_code(numbers, place, &code);
    }),
    ("a code of a single byte", |numbers, place, _, random| {
        numbers.heads[place] = numbers.heads[place] & MARKS | u64::from(random.byte()) << (8 * random.below(6));
    }),
    ("six or seven levels", |numbers, place, _, random| {
        let counts = random.pick(&[0x60, 0x70, 0x0C, 0x0E, 0x6C, 0x7E]);
        numbers.cells(place)[SHOWN] |= counts;
    }),
    ("a trade without a pair", |numbers, place, _, _| {
        let cells = numbers.cells(place);
        cells[SHOWN] |= 0x80;
        cells[1..3].fill(0);
    }),
    ("a pair without a trade", |numbers, place, _, random| {
        let cells = numbers.cells(place);
        cells[SHOWN] &= !0x80;
        cells[1..3].fill_with(|| random.any() as u32);
    }),
    ("bits above what is shown", |numbers, place, _, random| {
        numbers.cells(place)[SHOWN] |= random.pick(&[1, 0x100, 0x8000_0000, 0xFFFF_FF00]) | random.any() as u32 & !0xFF;
    }),
    ("bit 0 of what is shown", |numbers, place, _, _| numbers.cells(place)[SHOWN] |= 1),
    ("levels behind the count", |numbers, place, _, random| {
        let cells = numbers.cells(place);
        cells[3..SHOWN].fill_with(|| 1 + random.amount(99_999_998) as u32);
    }),
    ("a time that is none", |numbers, place, _, random| {
        let time = random.pick(&[u64::MAX, 1 << 63, 999_999_999_999, 240_000_000_000, 1 << 40]) ^ random.below(2);
        numbers.cells(place)[TIME..].copy_from_slice(&[time as u32, (time >> 32) as u32]);
    }),
    ("amounts out of range", |numbers, place, _, random| {
        let any = random.any() as u32;
        numbers.cells(place)[random.within(0..=SHOWN - 1)] = random.pick(&[u32::MAX, 1_000_000_000, 100_000_000, any]);
    }),
    ("any numbers", |numbers, place, _, random| {
        numbers.heads[place] = random.any();
        numbers.cells(place).fill_with(|| random.any() as u32);
    }),
];

fn put_code(numbers: &mut Numbers, place: usize, code: &Code) {
    let [a, b, c, d, e, f] = *code;
    numbers.heads[place] = numbers.heads[place] & MARKS | u64::from_le_bytes([a, b, c, d, e, f, 0, 0]);
}

/// The names of all kinds of fault.
pub fn names() -> impl Iterator<Item = &'static str> {
    KINDS.iter().map(|kind| kind.0)
}

/// Puts a fault of any kind into a row or some, or into all, and gives the kind's name.
pub fn disorder(numbers: &mut Numbers, codes: &[Code], random: &mut Random) -> &'static str {
    let (name, put) = random.pick(&KINDS);
    match random.below(8) {
        0 => (0..ROWS).for_each(|place| put(numbers, place, codes, random)),
        1..=3 => (0..random.within(2..=10)).for_each(|_| put(numbers, random.within(0..=ROWS - 1), codes, random)),
        // in the rows that come first, which are in use
        4 => put(numbers, random.within(0..=4), codes, random),
        _ => put(numbers, random.within(0..=ROWS - 1), codes, random),
    }
    name
}
