//! The gaps of small lines, with the rows written by hand.

use std::process::{Command, Stdio};

use crate::build::*;
use second::gaps::{tell, WhenFull};

fn told_by(bytes: &[u8], when_full: WhenFull) -> String {
    let mut output = Vec::new();
    tell(bytes, &mut output, when_full).unwrap();
    String::from_utf8(output).unwrap()
}

/// What is told of a line where no run is given up. Nothing else is where there is room for all of them.
fn told(bytes: &[u8]) -> String {
    let text = told_by(bytes, WhenFull::Refuse);
    if !text.contains("{\"refused\":22,") {
        assert_eq!(told_by(bytes, WhenFull::GiveUp), text);
    }
    text
}

/// A line of format six frames with these numbers.
fn line(numbers: &[u32]) -> Vec<u8> {
    numbers.iter().flat_map(|number| frame(&format!("01 06 04 {number:08}"), &quote(0x00, 0))).collect()
}

#[test]
fn no_arrivals() {
    let nothing = "{\"highest\":0,\"heard\":0,\"missing\":0,\"floor\":0,\"given_up\":0}\n";
    assert_eq!(told(&[]), nothing);
    // Frames of other formats, refused frames and noise are none.
    let mut refused = quote(0x00, 0);
    refused[15] = 0x0A;
    let levels = [frame(SIX, &quote(0x60, 6)), frame(SIX, &quote(0xA3, 4)), frame(SIX, &quote(0x11, 1))].concat();
    let others = [hex(NOTICE), hex(HALT), frame(SIX, &refused), levels, hex("1B 00")].concat();
    assert_eq!(told(&others), nothing);
    // The trade alone is one.
    let trades = [frame(SIX, &quote(0x81, 1)), frame("01 06 04 00000002", &quote(0x01, 0))].concat();
    assert_eq!(told(&trades), "{\"highest\":2,\"heard\":2,\"missing\":0,\"floor\":0,\"given_up\":0}\n");
}

#[test]
fn the_papers_arrivals() {
    let text = r#"{"first":1,"last":1,"count":1}
{"first":3,"last":4,"count":2}
{"highest":5,"heard":2,"missing":3,"floor":0,"given_up":0}
"#;
    assert_eq!(told(&line(&[5, 2, 5])), text);
    let between = [line(&[1]), hex("41"), hex(NOTICE), line(&[2]), hex("1B"), line(&[3])].concat();
    assert_eq!(told(&between), "{\"highest\":3,\"heard\":3,\"missing\":0,\"floor\":0,\"given_up\":0}\n");
}

#[test]
fn the_days_last_frame_arrives() {
    let last = frame("01 06 04 00000003", &body("000000", &format!("{NINES} 00 00 00 00000000")));
    let text = r#"{"first":2,"last":2,"count":1}
{"highest":3,"heard":2,"missing":1,"floor":0,"given_up":0}
"#;
    assert_eq!(told(&[line(&[1]), last].concat()), text);
}

#[test]
fn refusals() {
    let text = r#"{"refused":21,"count":1}
{"highest":0,"heard":0,"missing":0,"floor":0,"given_up":0}
"#;
    assert_eq!(told(&line(&[0])), text);
    let text = r#"{"first":1,"last":99999998,"count":99999998}
{"highest":99999999,"heard":1,"missing":99999998,"floor":0,"given_up":0}
"#;
    assert_eq!(told(&line(&[99_999_999])), text);
    // 64 runs, 1-1 to 127-127; then 130 and 132 are refused, 129 and 1 are new, 131 opens 130-130, and 0 is refused.
    let mut numbers: Vec<u32> = (2..=128).step_by(2).collect();
    numbers.extend([130, 132, 129, 1, 131, 0]);
    let mut text = String::new();
    for missing in (3..=127).step_by(2).chain([130]) {
        text += &format!("{{\"first\":{missing},\"last\":{missing},\"count\":1}}\n");
    }
    text += r#"{"refused":21,"count":1}
{"refused":22,"count":2}
{"highest":131,"heard":67,"missing":64,"floor":0,"given_up":0}
"#;
    assert_eq!(told(&line(&numbers)), text);
}

/// The rows of runs of one number each.
fn single(missing: impl Iterator<Item = u32>) -> String {
    missing.map(|number| format!("{{\"first\":{number},\"last\":{number},\"count\":1}}\n")).collect()
}

#[test]
fn runs_given_up() {
    // 64 runs, 1-1 to 127-127. For 130 the first of them is given up, for 133 the second; 2 was heard, and is below the floor
    // by then.
    let mut numbers: Vec<u32> = (2..=128).step_by(2).collect();
    numbers.extend([130, 1, 2, 130, 133, 2, 3, 4, 0, 131]);
    let mut text = single((5..=129).step_by(2));
    text += r#"{"first":132,"last":132,"count":1}
{"refused":21,"count":1}
{"refused":25,"count":3}
{"highest":133,"heard":67,"missing":64,"floor":3,"given_up":2}
"#;
    assert_eq!(told_by(&line(&numbers), WhenFull::GiveUp), text);
}

#[test]
fn a_number_given_up_with_its_run() {
    // 1-4 and 63 runs of one number. 2 would part the lowest, which is given up for it: then there is no place for 2 any more.
    let mut numbers: Vec<u32> = (5..=131).step_by(2).collect();
    numbers.extend([2, 1, 4]);
    let mut text = single((6..=130).step_by(2));
    text += r#"{"refused":25,"count":3}
{"highest":131,"heard":64,"missing":63,"floor":4,"given_up":4}
"#;
    assert_eq!(told_by(&line(&numbers), WhenFull::GiveUp), text);
}

#[test]
fn words_behind_the_name() {
    let run = |words: &[&str]| {
        let mut command = Command::new(env!("CARGO_BIN_EXE_gaps"));
        command.args(words).stdin(Stdio::null()).output().unwrap()
    };
    for words in [&[][..], &["give-up"]] {
        let output = run(words);
        assert_eq!((output.status.code(), output.stderr.len()), (Some(0), 0));
        assert_eq!(String::from_utf8(output.stdout).unwrap(), told(&[]));
    }
    for words in [&["give"][..], &["give-up", "give-up"], &["--give-up"], &[""]] {
        let output = run(words);
        assert_eq!((output.status.code(), output.stdout.len()), (Some(2), 0), "{words:?}");
        assert!(output.stderr.starts_with(b"usage: gaps "), "{words:?}");
    }
}
