//! Faults put into a ledger's record: into its ends, and into its floor and how many numbers were given up.

use second::random::Random;

use crate::record::{used, Numbers, ENDS};

/// The places of the floor and of the given-up count.
const FLOOR: usize = ENDS;
const GIVEN_UP: usize = ENDS + 1;

/// Puts one kind of fault into a record, or tells that it has no place for it.
type Put = fn(&mut Numbers, &mut Random) -> bool;

const FLOORS: [(&str, Put); 11] = [
    ("a floor, and nothing given up", |numbers, random| {
        let floor = random.pick(&[numbers[FLOOR], lowest_settled(numbers).saturating_sub(1)]);
        put(numbers, floor.max(1), 0)
    }),
    ("numbers given up, and no floor", |numbers, random| {
        let given_up = random.pick(&[1, numbers[GIVEN_UP].max(1), u32::MAX]);
        put(numbers, 0, given_up)
    }),
    ("more given up than there are up to the floor", |numbers, random| {
        let floor = numbers[FLOOR];
        let more = random.pick(&[floor + 1, floor + 2, numbers[0].max(floor + 1), 99_999_999, u32::MAX]);
        floor > 0 && put(numbers, floor, more)
    }),
    ("a floor at the highest number", |numbers, random| {
        let (highest, some) = (numbers[0], some_up_to(numbers[0], random));
        highest > 0 && put(numbers, highest, some)
    }),
    ("a floor above the highest number", |numbers, random| {
        let floor = random.pick(&[numbers[0] + 1, 99_999_999, 100_000_000, u32::MAX]);
        let some = some_up_to(floor, random);
        floor > numbers[0] && put(numbers, floor, some)
    }),
    ("a floor in a missing run", |numbers, random| {
        let Some((first, last)) = any_run(numbers, random) else { return false };
        let floor = random.pick(&[first, last, first + (last - first) / 2]);
        let some = some_up_to(floor, random);
        put(numbers, floor, some)
    }),
    ("a floor above a missing run", |numbers, random| {
        let Some((_, last)) = any_run(numbers, random) else { return false };
        let some = some_up_to(last, random);
        put(numbers, last + 1, some)
    }),
    ("a missing number next to the floor", |numbers, random| {
        let Some((first, _)) = any_run(numbers, random) else { return false };
        let some = some_up_to(first - 1, random);
        first > 1 && put(numbers, first - 1, some)
    }),
    ("an end at the floor or below it", |numbers, random| {
        let (lowest, floor) = (used(numbers), numbers[FLOOR]);
        if lowest == 0 || floor == 0 {
            return false;
        }
        numbers[lowest - 1] = random.pick(&[floor, (floor - 1).max(1), 1]);
        true
    }),
    ("a floor or a count one off", |numbers, random| {
        let place = random.pick(&[FLOOR, GIVEN_UP]);
        numbers[place] = random.pick(&[numbers[place].wrapping_add(1), numbers[place].wrapping_sub(1)]);
        true
    }),
    ("any floor and count", |numbers, random| {
        let (floor, given_up) = (random.any() as u32, random.amount(99_999_999) as u32);
        put(numbers, random.pick(&[floor, given_up]), given_up)
    }),
];

/// The names of all kinds of fault in a floor.
pub fn names() -> impl Iterator<Item = &'static str> {
    FLOORS.iter().map(|kind| kind.0)
}

/// Changes a record, mostly to one that no arrivals and give-ups leave, and gives the name of a fault that is in its floor.
pub fn damage(numbers: &mut Numbers, random: &mut Random) -> Option<&'static str> {
    if random.one_in(2) {
        damage_ends(numbers, random);
        return None;
    }
    let (name, put) = random.pick(&FLOORS);
    put(numbers, random).then_some(name)
}

fn damage_ends(numbers: &mut Numbers, random: &mut Random) {
    let place = random.within(0..=used(numbers).min(ENDS - 1));
    let ends = &mut numbers[..ENDS];
    let any = random.amount(99_999_999) as u32;
    match random.below(12) {
        0 => ends[0] = random.pick(&[100_000_000, 100_000_001, 999_999_999, u32::MAX]),
        // an end as its neighbour: runs that touch, or one that reaches the highest
        1 | 2 => ends[place] = ends[(place + 1).min(ENDS - 1)],
        3 => ends[place] = ends[place].wrapping_add(1),
        4 => ends[place] = ends[place].saturating_sub(1),
        // two ends in the other order
        5 => ends.swap(place, (place + 1).min(ENDS - 1)),
        6 => ends.swap(place, random.within(0..=ENDS - 1)),
        // an end that is none, and one in a place that is not used
        7 => ends[place] = 0,
        8 => ends[random.within(place..=ENDS - 1)] = 1 + any,
        9 => ends[ENDS - 1] = random.pick(&[1, any]),
        10 => ends[place] = any,
        _ => ends[place] = random.any() as u32,
    }
}

fn put(numbers: &mut Numbers, floor: u32, given_up: u32) -> bool {
    (numbers[FLOOR], numbers[GIVEN_UP]) = (floor, given_up);
    true
}

/// A count that a floor may have.
fn some_up_to(floor: u32, random: &mut Random) -> u32 {
    let any = 1 + random.below(u64::from(floor.max(1))) as u32;
    random.pick(&[1, floor, any])
}

/// The last number of the lowest stretch, if that is a settled one, or 0.
fn lowest_settled(numbers: &Numbers) -> u32 {
    match used(numbers) {
        used if used % 2 == 1 => numbers[used - 1],
        _ => 0,
    }
}

/// Any of the missing runs, if there are some: its first and its last number.
fn any_run(numbers: &Numbers, random: &mut Random) -> Option<(u32, u32)> {
    let count = used(numbers) / 2;
    let place = if count > 0 { 2 * random.within(1..=count) } else { return None };
    let below = if place < ENDS { numbers[place] } else { 0 };
    Some((below + 1, numbers[place - 1]))
}
