//! The generator: the same lines from the same seed, whole frames that are accepted, and every answer.

use std::collections::BTreeSet;

use second::derivatives;
use second::faults::{names, spoil};
use second::generate::Generator;
use second::random::Random;
use second::seen::Seen;
use second::series::texts;
use second::{read, write, NotWritten};

#[test]
fn a_known_series() {
    // The first numbers of SplitMix64 from this seed, as published.
    let mut random = Random::new(1_234_567);
    assert_eq!([random.any(), random.any()], [6_457_827_717_110_365_317, 3_203_168_211_198_807_973]);
}

#[test]
fn the_same_from_the_same_seed() {
    let lines = |seed| {
        let mut generator = Generator::new(seed);
        [generator.line(50), generator.line(1)]
    };
    assert_eq!(lines(7), lines(7));
    assert_ne!(lines(7)[0], lines(8)[0]);
    assert_eq!(texts(7, 1000), texts(7, 1000));
}

#[test]
fn whole_frames_are_accepted() {
    let mut generator = Generator::new(3);
    for _ in 0..5000 {
        let frame = generator.whole();
        let answer = read(&frame);
        assert_eq!((answer.number(), answer.length()), (0, Some(frame.len())), "{frame:02X?}");
    }
}

#[test]
fn every_answer_occurs() {
    let mut seen = Seen::default();
    assert!(!seen.is_all());
    let mut generator = Generator::new(5);
    for frames in [20_000, 100, 10, 1] {
        seen.line(&generator.line(frames)).unwrap();
    }
    assert!(seen.is_all(), "{seen}");
    assert_eq!(seen.answers[0], seen.formats.iter().sum());
    assert_eq!(seen.formats[1], seen.arrivals.iter().sum());
    assert_eq!(seen.formats[1], seen.above_floor.iter().sum());
    assert_eq!(seen.formats[1], seen.taken.iter().sum());
    assert_eq!(seen.formats[1], seen.shown.iter().sum());
    assert_eq!(seen.answers[10], seen.levels.iter().sum());
    assert_eq!(seen.answers[3], seen.halves.lengths.iter().sum());
    assert!(seen.kept.iter().sum::<u64>() <= seen.shown[1] + seen.shown[2]);
    assert_eq!(seen.rows[..3].iter().sum::<u64>(), seen.sides.iter().sum());
}

#[test]
fn so_many_arrivals() {
    let texts = texts(1, 20_000);
    let arrivals = texts.iter().flat_map(|text| text.lines()).filter(|line| line.parse::<u32>().is_ok()).count();
    assert_eq!(arrivals, 20_000);
    assert!(texts.iter().all(|text| text.len() <= 65_536));
    assert!(texts.iter().any(|text| text.contains("\ngive-up\n")) && texts.iter().any(|text| text.contains('/')));
}

#[test]
fn every_fault_answers_14() {
    let (mut generator, mut random) = (Generator::new(4), Random::new(4));
    let mut seen = BTreeSet::new();
    for _ in 0..5000 {
        let mut message = *read(&generator.whole()).message().expect("a whole frame has a message");
        let name = spoil(&mut message, &mut random);
        assert_eq!(write(&message, &mut [0; 400]), Err(NotWritten::Message), "{name}: {message:?}");
        assert_eq!(write(&message, &mut []), Err(NotWritten::Message), "{name}: {message:?}");
        seen.insert(name);
    }
    assert!(seen.into_iter().eq(names().into_iter().collect::<BTreeSet<_>>()));
}

#[test]
fn the_same_for_the_derivatives_exchange() {
    let lines = |seed| {
        let mut generator = derivatives::generate::Generator::new(seed);
        [generator.line(50), generator.line(1)]
    };
    assert_eq!(lines(7), lines(7));
    assert_ne!(lines(7)[0], lines(8)[0]);
    let mut generator = derivatives::generate::Generator::new(3);
    for _ in 0..2000 {
        let frame = generator.whole();
        let answer = derivatives::read(&frame);
        assert_eq!((answer.number(), answer.length()), (0, Some(frame.len())), "{frame:02X?}");
        // At the stock exchange it would have a length above 3,000.
        assert_eq!((read(&frame).number(), read(&frame).place()), (3, None));
    }
}

#[test]
fn every_answer_of_the_derivatives_exchange_occurs() {
    let mut seen = derivatives::seen::Seen::default();
    assert!(!seen.is_all());
    let mut generator = derivatives::generate::Generator::new(5);
    for frames in [20_000, 100, 10, 1] {
        seen.line(&generator.line(frames)).unwrap();
    }
    assert!(seen.is_all(), "{seen}");
    assert_eq!(seen.answers[0], seen.accepted.iter().sum());
    for (answer, causes) in [
        (3, &seen.lengths[..]),
        (7, &seen.formats[..]),
        (9, &seen.bodies[..]),
        (12, &seen.times[..]),
        (13, &seen.fields[..]),
    ] {
        assert_eq!(seen.answers[answer], causes.iter().sum(), "{answer}");
    }
}

#[test]
fn every_fault_of_an_index_value_answers_14() {
    let (mut generator, mut random) = (derivatives::generate::Generator::new(4), Random::new(4));
    let mut seen = BTreeSet::new();
    for _ in 0..5000 {
        let mut message = *derivatives::read(&generator.whole()).message().expect("a whole frame has a message");
        let name = derivatives::faults::spoil(&mut message, &mut random);
        for size in [0, 40] {
            let mut buffer = vec![0xEE; size];
            assert_eq!(derivatives::write(&message, &mut buffer), Err(NotWritten::Message), "{name}: {message:?}");
            assert!(buffer.iter().all(|&byte| byte == 0xEE));
        }
        seen.insert(name);
    }
    assert!(seen.into_iter().eq(derivatives::faults::names().into_iter().collect::<BTreeSet<_>>()));
}
