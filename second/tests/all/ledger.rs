//! The ledger: the edges of docs/RULES.md, runs that are given up, and every way to spoil a record. Long series beside a plain
//! model are in model.rs.

use second::ledger::{Arrival, Ledger, Run};

fn arrival(ledger: &mut Ledger, number: u32) -> Result<Arrival, u8> {
    ledger.arrival(number).map_err(|why| why.number())
}

fn give_up(ledger: &mut Ledger) -> Result<(u32, u32), u8> {
    ledger.give_up().map(|run| (run.first, run.last)).map_err(|why| why.number())
}

fn runs(ledger: &Ledger) -> Vec<(u32, u32)> {
    let count = ledger.runs().unwrap();
    (0..count).map(|place| ledger.run(place).unwrap()).map(|run| (run.first, run.last)).collect()
}

#[test]
fn five_two_five() {
    let mut ledger = Ledger::FRESH;
    let answers = [5, 2, 5].map(|number| arrival(&mut ledger, number));
    assert_eq!(answers, [Ok(Arrival::New), Ok(Arrival::New), Ok(Arrival::Repeat)]);
    assert_eq!(ledger.heard(), Ok(2));
    assert_eq!(runs(&ledger), [(1, 1), (3, 4)]);
    assert_eq!(ledger.missing(), Ok(3));
    assert_eq!(ledger.highest(), Ok(5));
    assert_eq!(ledger.run(2).map_err(|why| why.number()), Err(23));
}

fn full() -> Ledger {
    let mut ledger = Ledger::FRESH;
    for number in (2..=128).step_by(2) {
        assert_eq!(arrival(&mut ledger, number), Ok(Arrival::New));
    }
    ledger
}

#[test]
fn sixty_four_runs() {
    let mut ledger = full();
    assert_eq!(ledger.runs(), Ok(64));
    let before = ledger;
    assert_eq!(arrival(&mut ledger, 130), Err(22));
    assert_eq!(ledger, before);
    assert_eq!(arrival(&mut ledger, 129), Ok(Arrival::New));
    assert_eq!(arrival(&mut ledger, 1), Ok(Arrival::New));
    assert_eq!(arrival(&mut ledger, 131), Ok(Arrival::New));
    assert_eq!((ledger.runs(), ledger.run(63)), (Ok(64), Ok(Run { first: 130, last: 130 })));
}

#[test]
fn a_full_ledger_splits_no_run() {
    let mut ledger = Ledger::FRESH;
    for number in (4..=256).step_by(4) {
        assert_eq!(arrival(&mut ledger, number), Ok(Arrival::New));
    }
    let before = ledger;
    assert_eq!(arrival(&mut ledger, 6), Err(22)); // inside 5-7
    assert_eq!(arrival(&mut ledger, 8), Ok(Arrival::Repeat));
    assert_eq!(ledger, before);
    assert_eq!(arrival(&mut ledger, 5), Ok(Arrival::New));
    assert_eq!(arrival(&mut ledger, 7), Ok(Arrival::New));
    assert_eq!(arrival(&mut ledger, 6), Ok(Arrival::New));
    assert_eq!(ledger.runs(), Ok(63));
    assert_eq!(ledger.runs[63], Run::default());
    assert_eq!(arrival(&mut ledger, 10), Ok(Arrival::New));
    assert_eq!(ledger.runs(), Ok(64));
}

#[test]
fn numbers_out_of_range() {
    let mut ledger = Ledger::FRESH;
    for number in [0, 100_000_000, u32::MAX] {
        assert_eq!(arrival(&mut ledger, number), Err(21));
        assert_eq!(ledger, Ledger::FRESH);
        assert_eq!(arrival(&mut full(), number), Err(21));
    }
    assert_eq!(arrival(&mut ledger, 99_999_999), Ok(Arrival::New));
    assert_eq!((ledger.missing(), ledger.heard()), (Ok(99_999_998), Ok(1)));
    assert_eq!(runs(&ledger), [(1, 99_999_998)]);
}

#[test]
fn a_fresh_ledger() {
    let ledger = Ledger::default();
    assert_eq!((ledger.highest(), ledger.heard(), ledger.missing(), ledger.runs()), (Ok(0), Ok(0), Ok(0), Ok(0)));
    assert_eq!(ledger.run(0).map_err(|why| why.number()), Err(23));
}

/// 5, 2 and 9 were heard.
fn three() -> Ledger {
    let mut ledger = Ledger::FRESH;
    for number in [5, 2, 9] {
        arrival(&mut ledger, number).unwrap();
    }
    assert_eq!(runs(&ledger), [(1, 1), (3, 4), (6, 8)]);
    ledger
}

#[test]
fn the_lowest_run_is_given_up() {
    let mut ledger = three();
    assert_eq!(give_up(&mut ledger), Ok((1, 1)));
    assert_eq!((ledger.floor(), ledger.given_up(), ledger.heard(), ledger.missing()), (Ok(1), Ok(1), Ok(3), Ok(5)));
    assert_eq!(runs(&ledger), [(3, 4), (6, 8)]);
    assert_eq!(arrival(&mut ledger, 1), Err(25));
    assert_eq!(arrival(&mut ledger, 2), Ok(Arrival::Repeat));
    assert_eq!(give_up(&mut ledger), Ok((3, 4)));
    assert_eq!((ledger.floor(), ledger.given_up(), ledger.heard(), ledger.missing()), (Ok(4), Ok(3), Ok(3), Ok(3)));
    // 2 was heard, and is below the floor now
    assert_eq!([1, 2, 3, 4].map(|number| arrival(&mut ledger, number)), [Err(25); 4]);
    assert_eq!([0, 100_000_000].map(|number| arrival(&mut ledger, number)), [Err(21); 2]);
    assert_eq!([5, 7].map(|number| arrival(&mut ledger, number)), [Ok(Arrival::Repeat), Ok(Arrival::New)]);
    assert_eq!([give_up(&mut ledger), give_up(&mut ledger), give_up(&mut ledger)], [Ok((6, 6)), Ok((8, 8)), Err(24)]);
    assert_eq!((ledger.floor(), ledger.given_up(), ledger.heard(), ledger.missing()), (Ok(8), Ok(5), Ok(4), Ok(0)));
    assert_eq!((ledger.highest(), ledger.runs()), (Ok(9), Ok(0)));
    ledger.clear();
    assert_eq!(ledger, Ledger::FRESH);
}

#[test]
fn nothing_to_give_up() {
    let mut ledger = Ledger::FRESH;
    assert_eq!(give_up(&mut ledger), Err(24));
    assert_eq!(ledger, Ledger::FRESH);
    for number in 1..=3 {
        arrival(&mut ledger, number).unwrap();
    }
    let before = ledger;
    assert_eq!(give_up(&mut ledger), Err(24));
    assert_eq!(ledger, before);
}

#[test]
fn a_run_that_is_given_up_leaves_its_room() {
    let mut ledger = full();
    assert_eq!(arrival(&mut ledger, 130), Err(22));
    assert_eq!(give_up(&mut ledger), Ok((1, 1)));
    assert_eq!(arrival(&mut ledger, 130), Ok(Arrival::New));
    assert_eq!((ledger.runs(), ledger.run(0), ledger.run(63)), (Ok(64), Ok(run(3, 3)), Ok(run(129, 129))));
    assert_eq!(arrival(&mut ledger, 132), Err(22));
    // the longest run that there can be
    let mut ledger = Ledger::FRESH;
    assert_eq!(arrival(&mut ledger, 99_999_999), Ok(Arrival::New));
    assert_eq!(give_up(&mut ledger), Ok((1, 99_999_998)));
    assert_eq!((ledger.floor(), ledger.given_up()), (Ok(99_999_998), Ok(99_999_998)));
    let last = [99_999_998, 99_999_999, 100_000_000].map(|number| arrival(&mut ledger, number));
    assert_eq!(last, [Err(25), Ok(Arrival::Repeat), Err(21)]);
}

fn run(first: u32, last: u32) -> Run {
    Run { first, last }
}

/// A record that answers 20 to every call, stays as it is, and can be cleared.
fn spoilt_in(mut ledger: Ledger, change: impl Fn(&mut Ledger)) {
    change(&mut ledger);
    let mut after = ledger;
    for number in [0, 1, 5, 10, u32::MAX] {
        assert_eq!(arrival(&mut after, number), Err(20));
    }
    assert_eq!(give_up(&mut after), Err(20));
    let asked = [ledger.highest(), ledger.heard(), ledger.missing(), ledger.floor(), ledger.given_up()];
    assert!(asked.iter().all(|answer| answer.map_err(|why| why.number()) == Err(20)));
    assert_eq!(ledger.runs().map_err(|why| why.number()), Err(20));
    for place in [0, 3, usize::MAX] {
        assert_eq!(ledger.run(place).map_err(|why| why.number()), Err(20));
    }
    assert_eq!(after, ledger);
    after.clear();
    assert_eq!(after, Ledger::FRESH);
}

fn spoilt(change: impl Fn(&mut Ledger)) {
    spoilt_in(three(), change);
}

#[test]
fn spoilt_records() {
    spoilt(|ledger| ledger.highest = 8); // a run reaches the highest
    spoilt(|ledger| ledger.highest = 10); // the figures do not agree
    spoilt(|ledger| ledger.heard = 2);
    spoilt(|ledger| ledger.heard = 4);
    spoilt(|ledger| (ledger.highest, ledger.heard) = (100_000_000, 100_000_000 - 6)); // no such number
    spoilt(|ledger| ledger.count = 2);
    spoilt(|ledger| ledger.count = 4);
    spoilt(|ledger| ledger.count = 65);
    spoilt(|ledger| ledger.count = usize::MAX);
    spoilt(|ledger| ledger.runs.swap(0, 1)); // out of order
    spoilt(|ledger| (ledger.runs[0].first, ledger.heard) = (0, 2)); // there is no number 0
    spoilt(|ledger| (ledger.runs[1].last, ledger.heard) = (5, 2)); // touching
    spoilt(|ledger| (ledger.runs[1].last, ledger.heard) = (6, 1)); // overlapping
    spoilt(|ledger| (ledger.runs[1].first, ledger.heard) = (5, 5)); // back to front
    spoilt(|ledger| ledger.runs[3].first = 1); // an unused place
    spoilt(|ledger| ledger.runs[63].last = 1);
    spoilt(|ledger| ledger.runs[2].last = u32::MAX);
    spoilt(|ledger| (ledger.highest, ledger.heard) = (u32::MAX, u32::MAX - 6));
    spoilt(|ledger| *ledger = Ledger { heard: 1, ..Ledger::FRESH });
    spoilt(|ledger| *ledger = Ledger { highest: 1, ..Ledger::FRESH });
}

/// Puts a floor, how many were given up and how many were heard into a record.
fn put(ledger: &mut Ledger, floor: u32, given_up: u32, heard: u32) {
    (ledger.floor, ledger.given_up, ledger.heard) = (floor, given_up, heard);
}

#[test]
fn spoilt_floors() {
    spoilt(|ledger| put(ledger, 1, 0, 3)); // a floor, and nothing given up
    spoilt(|ledger| put(ledger, 0, 1, 2)); // the other way round
    spoilt(|ledger| put(ledger, 0, u32::MAX, 4));
    spoilt(|ledger| put(ledger, 1, 1, 2)); // a run at the floor, and below it
    spoilt(|ledger| put(ledger, 5, 3, 0));
    for floor in [9, 10, 99_999_999, 100_000_000, u32::MAX] {
        spoilt(|ledger| put(ledger, floor, 1, 2)); // at the highest, or above
    }
    // Without the runs as well: in order up to 9.
    let in_order = Ledger { highest: 9, heard: 9, ..Ledger::FRESH };
    for floor in [9, 10, 99_999_999, u32::MAX] {
        spoilt_in(in_order, |ledger| put(ledger, floor, 1, 8));
        spoilt_in(in_order, |ledger| put(ledger, floor, 9, 0));
    }
    // 1-1 was given up; 3-4 and 6-8 are missing.
    let mut above = three();
    assert_eq!(give_up(&mut above), Ok((1, 1)));
    spoilt_in(above, |ledger| put(ledger, 1, 0, 4));
    spoilt_in(above, |ledger| put(ledger, 0, 1, 3));
    spoilt_in(above, |ledger| put(ledger, 1, 2, 2)); // more than there are up to the floor
    spoilt_in(above, |ledger| put(ledger, 1, 4, 0));
    spoilt_in(above, |ledger| put(ledger, 1, u32::MAX, 5));
    spoilt_in(above, |ledger| ledger.heard = 2); // the figures do not agree
    spoilt_in(above, |ledger| ledger.heard = 4);
    for floor in 2..=10 {
        spoilt_in(above, |ledger| ledger.floor = floor); // 3 is missing, or is below the floor
    }
    spoilt_in(above, |ledger| ledger.floor = 99_999_999);
    spoilt_in(above, |ledger| ledger.floor = u32::MAX);
    spoilt_in(above, |ledger| (ledger.runs[0].first, ledger.heard) = (2, 2)); // the number above the floor
    spoilt_in(above, |ledger| (ledger.runs[0].first, ledger.heard) = (1, 1));
}
