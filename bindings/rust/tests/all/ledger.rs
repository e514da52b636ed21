use trivsome::*;

#[test]
fn five_two_five() {
    let mut ledger = Ledger::new();
    let answers = [5, 2, 5].map(|n| ledger.arrive(n));
    assert_eq!(answers, [Ok(Arrival::New), Ok(Arrival::New), Ok(Arrival::Repeat)]);
    assert_eq!((ledger.heard(), ledger.missing(), ledger.highest()), (Ok(2), Ok(3), Ok(5)));
    assert_eq!(ledger.runs(), Ok(2));
    assert_eq!(ledger.run(0), Ok(Run { first: 1, last: 1 }));
    assert_eq!(ledger.run(1), Ok(Run { first: 3, last: 4 }));
    assert_eq!(ledger.run(2), Err(LedgerRefusal::Place));
    assert_eq!(ledger.numbers()[..5], [5, 4, 2, 1, 0]);
}

#[test]
fn sixty_four_runs_are_the_most() {
    let mut ledger = Ledger::new();
    for n in (2..=128).step_by(2) {
        assert_eq!(ledger.arrive(n), Ok(Arrival::New));
    }
    assert_eq!(ledger.runs(), Ok(64));
    assert_eq!(ledger.arrive(130), Err(LedgerRefusal::Full));
    assert_eq!([129, 1, 131].map(|n| ledger.arrive(n)), [Ok(Arrival::New); 3]);
    assert_eq!(ledger.run(63), Ok(Run { first: 130, last: 130 }));
}

#[test]
fn numbers_outside_and_the_greatest() {
    let mut ledger = Ledger::new();
    assert_eq!(ledger.arrive(0), Err(LedgerRefusal::Number));
    assert_eq!(ledger.arrive(100_000_000), Err(LedgerRefusal::Number));
    assert_eq!(ledger, Ledger::new());
    assert_eq!(ledger.arrive(99_999_999), Ok(Arrival::New));
    assert_eq!(ledger.missing(), Ok(99_999_998));
    assert_eq!(ledger.run(0), Ok(Run { first: 1, last: 99_999_998 }));
}

#[test]
fn the_lowest_run_is_given_up() {
    let mut ledger = Ledger::new();
    assert_eq!([5, 2, 9].map(|n| ledger.arrive(n)), [Ok(Arrival::New); 3]);
    assert_eq!(ledger.give_up(), Ok(Run { first: 1, last: 1 }));
    assert_eq!(ledger.give_up(), Ok(Run { first: 3, last: 4 }));
    assert_eq!((ledger.floor(), ledger.given_up()), (Ok(4), Ok(3)));
    assert_eq!((ledger.heard(), ledger.missing(), ledger.highest()), (Ok(3), Ok(3), Ok(9)));
    assert_eq!((ledger.runs(), ledger.run(0)), (Ok(1), Ok(Run { first: 6, last: 8 })));
    // 2 came, and is below the floor now
    assert_eq!([1, 2, 4].map(|n| ledger.arrive(n)), [Err(LedgerRefusal::Floor); 3]);
    assert_eq!([5, 6].map(|n| ledger.arrive(n)), [Ok(Arrival::Repeat), Ok(Arrival::New)]);
    assert_eq!(ledger.arrive(0), Err(LedgerRefusal::Number));
    assert_eq!([ledger.give_up(), ledger.give_up()], [Ok(Run { first: 7, last: 8 }), Err(LedgerRefusal::NoRun)]);
    let numbers = ledger.numbers();
    assert_eq!((numbers[..2].to_vec(), &numbers[129..]), (vec![9, 0], &[8, 5][..]));
    assert_eq!(Ledger::from_numbers(numbers), ledger);
    ledger.clear();
    assert_eq!(ledger, Ledger::new());
    assert_eq!(ledger.give_up(), Err(LedgerRefusal::NoRun));
}

#[test]
fn a_run_that_is_given_up_leaves_its_room() {
    let mut ledger = Ledger::new();
    for n in (2..=128).step_by(2) {
        assert_eq!(ledger.arrive(n), Ok(Arrival::New));
    }
    assert_eq!(ledger.arrive(130), Err(LedgerRefusal::Full));
    assert_eq!(ledger.give_up(), Ok(Run { first: 1, last: 1 }));
    assert_eq!(ledger.arrive(130), Ok(Arrival::New));
    assert_eq!((ledger.runs(), ledger.run(63)), (Ok(64), Ok(Run { first: 129, last: 129 })));
}

/// A record that answers 20 to every call, stays as it is, and can be cleared.
fn refused(numbers: [u32; 131]) {
    let mut ledger = Ledger::from_numbers(numbers);
    assert_eq!(ledger.arrive(0), Err(LedgerRefusal::Record));
    assert_eq!(ledger.give_up(), Err(LedgerRefusal::Record));
    let asked = [ledger.highest(), ledger.heard(), ledger.missing(), ledger.runs(), ledger.floor(), ledger.given_up()];
    assert_eq!(asked.map(|answer| answer.map_err(LedgerRefusal::number)), [Err(20); 6]);
    assert_eq!(ledger.run(99), Err(LedgerRefusal::Record));
    assert_eq!(ledger.numbers(), numbers);
    ledger.clear();
    assert_eq!(ledger, Ledger::default());
}

#[test]
fn records_that_no_arrivals_and_give_ups_leave() {
    let record = |ends: &[u32], floor: u32, given_up: u32| {
        let mut numbers = [0; 131];
        numbers[..ends.len()].copy_from_slice(ends);
        numbers[129..].copy_from_slice(&[floor, given_up]);
        numbers
    };
    refused(record(&[5, 5], 0, 0));
    // 9, 5 and 2 were heard, and 1 was given up
    let above = Ledger::from_numbers(record(&[9, 8, 5, 4, 2], 1, 1));
    assert_eq!((above.heard(), above.missing(), above.given_up()), (Ok(3), Ok(5), Ok(1)));
    for (floor, given_up) in [(1, 0), (0, 1), (1, 2), (2, 1), (4, 1), (9, 1), (99_999_999, 1), (u32::MAX, u32::MAX)] {
        refused(record(&[9, 8, 5, 4, 2], floor, given_up));
    }
    // 1 is missing, and 2 as well
    refused(record(&[9, 8, 5, 4, 2, 1], 1, 1));
    refused(record(&[9, 8, 5, 4, 3, 2], 1, 1));
}
