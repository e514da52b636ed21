//! The printed table, with its lines written by hand.

use std::process::{Command, Stdio};

use second::table::tell;

const FIRST: &str = "  0   1   2   3   4   5   6   7   8   9 255 255 255 255 255 255";
const TENTH: &str = " 90  91  92  93  94  95  96  97  98  99 255 255 255 255 255 255";
const BEHIND: &str = "255 255 255 255 255 255 255 255 255 255 255 255 255 255 255 255";

fn told() -> String {
    let mut output = Vec::new();
    tell(&mut output).unwrap();
    String::from_utf8(output).unwrap()
}

#[test]
fn its_lines() {
    let text = told();
    let lines: Vec<&str> = text.split_inclusive('\n').collect();
    assert_eq!(lines.len(), 16);
    assert!(lines.iter().all(|line| line.len() == 64 && line.ends_with('\n')), "{text}");
    assert_eq!([lines[0], lines[9]], [FIRST, TENTH].map(|line| format!("{line}\n")));
    assert!(lines[10..].iter().all(|line| line.trim_end_matches('\n') == BEHIND), "{text}");
}

#[test]
fn the_program_reads_nothing() {
    let output = Command::new(env!("CARGO_BIN_EXE_table")).stdin(Stdio::null()).output().unwrap();
    assert_eq!((output.status.code(), output.stderr.len()), (Some(0), 0));
    assert_eq!(String::from_utf8(output.stdout).unwrap(), told());
}
