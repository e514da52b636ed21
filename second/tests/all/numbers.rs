//! What a ledger says of small series, with the rows written by hand.

use second::numbers::tell;

fn told(text: &str) -> String {
    let mut output = Vec::new();
    tell(text.as_bytes(), &mut output).unwrap();
    String::from_utf8(output).unwrap()
}

const FRESH: &str = "highest 0 heard 0 missing 0 runs 0 floor 0 given-up 0\nrun 0 23\n";

#[test]
fn series() {
    assert_eq!(told(""), FRESH);
    assert_eq!(told("\n"), [FRESH, FRESH].concat());
    let figures = "highest 5 heard 2 missing 3 runs 2 floor 0 given-up 0\nrun 0 1-1\nrun 1 3-4\nrun 2 23\n";
    let starred = &["5 new\n2 new\n5 repeat\n", figures].concat();
    assert_eq!(told("5\n2\n5\n"), *starred);
    // An empty line clears.
    let one = "1 new\nhighest 1 heard 1 missing 0 runs 0 floor 0 given-up 0\nrun 0 23\n";
    assert_eq!(told("5\n2\n5\n\n1\n\n"), [starred, one, FRESH].concat());
    let outside =
        "0 21\n100000000 21\n99999999 new\nhighest 99999999 heard 1 missing 99999998 runs 1 floor 0 given-up 0\n";
    assert_eq!(told("0\n100000000\n99999999\n"), format!("{outside}run 0 1-99999998\nrun 1 23\n"));
}

#[test]
fn too_many_runs() {
    let mut text: String = (1..=64).map(|half| format!("{}\n", 2 * half)).collect();
    text += "130\n129\n1\n131\n";
    let mut expected: String = (1..=64).map(|half| format!("{} new\n", 2 * half)).collect();
    expected += "130 22\n129 new\n1 new\n131 new\nhighest 131 heard 67 missing 64 runs 64 floor 0 given-up 0\n";
    for place in 0..63 {
        expected += &format!("run {place} {0}-{0}\n", 2 * place + 3);
    }
    assert_eq!(told(&text), expected + "run 63 130-130\nrun 64 23\n");
}

#[test]
fn runs_given_up() {
    let text = "5\n2\ngive-up\n1\n2\n5\ngive-up\n2\n4\n0\ngive-up\n\ngive-up\n";
    let answers = "5 new\n2 new\ngive-up 1-1\n1 25\n2 repeat\n5 repeat\ngive-up 3-4\n2 25\n4 25\n0 21\ngive-up 24\n";
    let figures = "highest 5 heard 2 missing 0 runs 0 floor 4 given-up 3\nrun 0 23\n";
    assert_eq!(told(text), [answers, figures, "give-up 24\n", FRESH].concat());
    // Room for a number that found none.
    let mut text: String = (1..=64).map(|half| format!("{}\n", 2 * half)).collect();
    text += "130\ngive-up\n130\n132\n1\n";
    let told = told(&text);
    let figures = "\nhighest 130 heard 65 missing 64 runs 64 floor 1 given-up 1\nrun 0 3-3\n";
    assert!(told.contains(&["\n130 22\ngive-up 1-1\n130 new\n132 22\n1 25", figures].concat()), "{told}");
    assert!(told.ends_with("\nrun 63 129-129\nrun 64 23\n"));
}

/// What is told of a lent record.
fn lent(record: &str) -> String {
    told(&format!("{record}\n")).strip_suffix(FRESH).unwrap().to_string()
}

const DAMAGED: &str = "lent 20
lent give-up 20
highest 20 heard 20 missing 20 runs 20 floor 20 given-up 20
run 0 20
";

#[test]
fn lent_records() {
    // 5 and 2 were heard: 5 is the highest, 3-4 is missing, 2 was heard, and 1 is missing down to the beginning.
    let two = "lent new
lent give-up 1-1
highest 5 heard 2 missing 3 runs 2 floor 0 given-up 0
run 0 1-1
run 1 3-4
run 2 23
";
    assert_eq!(lent("5 4 2 1"), two);
    assert_eq!(lent("5 4 2 1 0 0"), two);
    let four = "highest 4 heard 4 missing 0 runs 0 floor 0 given-up 0\nrun 0 23\n";
    assert_eq!(lent("4 0"), ["lent repeat\nlent give-up 24\n", four].concat());
    let three = "highest 4 heard 3 missing 1 runs 1 floor 0 given-up 0\nrun 0 2-2\nrun 1 23\n";
    assert_eq!(lent("4 2 1"), ["lent repeat\nlent give-up 2-2\n", three].concat());
    for ends in ["0 1", "5 5", "4 5", "5 4 0 1", "5 0 4", "100000000 1"] {
        assert_eq!(lent(ends), DAMAGED, "{ends}");
    }
    assert_eq!(lent("0 0"), ["lent new\nlent give-up 24\n", FRESH].concat());
}

#[test]
fn lent_floors() {
    // 9, 5 and 2 were heard, and 1 was given up: the numbers up to 2 are settled.
    let above = "lent new
lent give-up 3-4
highest 9 heard 3 missing 5 runs 2 floor 1 given-up 1
run 0 3-4
run 1 6-8
run 2 23
";
    for record in ["9 8 5 4 2 / 1 1", "9 8 5 4 2/1 1", "9 8 5 4 2 0 0 /1 1 7 7", "9 8 5 4 2/ 1 1"] {
        assert_eq!(lent(record), above);
    }
    // With a floor of 4 the numbers up to 5 are settled, and of 1 to 4 one was heard; with one of 8 all are settled, and only 9
    // was heard.
    let higher = "highest 9 heard 3 missing 3 runs 1 floor 4 given-up 3\nrun 0 6-8\nrun 1 23\n";
    assert_eq!(lent("9 8 5 / 4 3"), ["lent 25\nlent give-up 6-8\n", higher].concat());
    let highest = "highest 9 heard 1 missing 0 runs 0 floor 8 given-up 8\nrun 0 23\n";
    assert_eq!(lent("9 0 / 8 8"), ["lent 25\nlent give-up 24\n", highest].concat());
    assert_eq!(lent("5 4 2 1 / 0 0"), lent("5 4 2 1"));
    assert_eq!(lent("5 4 2 1 /"), lent("5 4 2 1"));
    let wrong = ["1 0", "0 1", "1 2", "2 1", "3 1", "4 3", "5 1", "8 1", "9 1", "10 1", "99999999 1", "999999999 1"];
    for floor in wrong {
        assert_eq!(lent(&format!("9 8 5 4 2 / {floor}")), DAMAGED, "{floor}");
    }
    // 1 is missing, or 2 as well, at the floor and below it; no number was heard; in order up to the floor.
    for record in [
        "9 8 5 4 3 2 / 1 1",
        "9 8 5 4 2 1 / 1 1",
        "9 8 5 4 2 1 / 2 1",
        "0 0 / 1 1",
        "9 8 / 8 8",
        "9 0 / 9 1",
        "9 0 / 9 9",
    ] {
        assert_eq!(lent(record), DAMAGED, "{record}");
    }
}
