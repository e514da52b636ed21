//! The driver, run on this package's own programs in the place of the proved ones: as they are, and with a fault.

use std::fs;
use std::os::unix::fs::PermissionsExt;
use std::path::PathBuf;
use std::process::Command;
use std::sync::Mutex;

/// One script at a time: one that is being written cannot be run.
static TURN: Mutex<()> = Mutex::new(());

/// A script like `trivsome`, which lists some programs and runs them, then `behind` on what they print.
fn script(listed: &str, behind: &str) -> PathBuf {
    let programs = [
        ("listing", env!("CARGO_BIN_EXE_listing")),
        ("messages", env!("CARGO_BIN_EXE_messages")),
        ("refusals", env!("CARGO_BIN_EXE_refusals")),
        ("gaps", env!("CARGO_BIN_EXE_gaps")),
        ("board", env!("CARGO_BIN_EXE_board")),
        ("numbers", env!("CARGO_BIN_EXE_numbers")),
        ("table", env!("CARGO_BIN_EXE_table")),
    ];
    let mut text = format!("#!/bin/sh\ncase $1 in\n--help) echo 'Usage: this'; printf '  %s words\\n' {listed} ;;\n");
    for (program, path) in programs {
        text += &format!("{program}) shift; '{path}' \"$@\" | {behind} ;;\n");
    }
    text += "*) exit 2 ;;\nesac\n";
    let path = std::env::temp_dir().join(format!("second-{}", std::process::id()));
    fs::write(&path, text).unwrap();
    fs::set_permissions(&path, fs::Permissions::from_mode(0o755)).unwrap();
    path
}

/// The exit status of the driver with such a script, and what it printed.
fn compare(listed: &str, behind: &str, frames: &str) -> (Option<i32>, String) {
    let _turn = TURN.lock();
    let script = script(listed, behind);
    let mut command = Command::new(env!("CARGO_BIN_EXE_compare"));
    let output = command.args(["--seed", "2", "--frames", frames]).arg(&script).output().unwrap();
    fs::remove_file(script).unwrap();
    let text = String::from_utf8(output.stdout).unwrap();
    if let Some((_, kept)) = text.trim_end().split_once("the input is kept as ") {
        fs::remove_file(kept).unwrap();
    }
    (output.status.code(), text)
}

#[test]
fn the_same() {
    let (status, text) = compare("listing messages refusals gaps board numbers table", "cat", "300");
    assert_eq!(status, Some(0), "{text}");
    for program in [
        "listing",
        "messages",
        "refusals",
        "gaps",
        "gaps give-up",
        "board",
        "listing derivatives-2015",
        "messages derivatives-2015",
        "refusals derivatives-2015",
        "numbers",
        "table",
    ] {
        assert!(text.lines().any(|line| line.starts_with(&format!("{program}: ")) && line.ends_with(" all the same")));
    }
}

#[test]
fn only_what_is_listed() {
    let (status, text) = compare("worked gaps", "cat", "30");
    assert_eq!(status, Some(0), "{text}");
    assert!(text.contains("listing: not there to be compared\n"));
    assert_eq!(text.matches("all the same").count(), 2, "gaps, and gaps that gives runs up");
    assert_eq!(compare("worked", "cat", "30").0, Some(1));
    let (status, text) = compare("worked gaps", "cat", "100000");
    assert_eq!(status, Some(1), "{text}");
    assert!(text.contains(" lists no program listing\n"), "{text}");
    for (listed, missing) in [
        ("listing messages refusals gaps board numbers", "table"),
        ("listing messages gaps board numbers table", "refusals"),
    ] {
        let (status, text) = compare(listed, "cat", "100000");
        assert_eq!(status, Some(1), "{text}");
        assert!(text.contains(&format!(" lists no program {missing}\n")), "{text}");
    }
}

#[test]
fn a_difference() {
    for (program, behind, proved, second) in [
        ("listing", "sed 's/^total,.*/total,1,2,3/'", "total,1,2,3", "total,"),
        ("listing", "sed '$d'", "no such row", "total,"),
        ("messages", "sed '1s/\"seq\":/\"seq\":1/'", "{\"at\":", "{\"at\":"),
        ("messages", "sed 's/\"bids\":null/\"bids\":[]/'", "\"bids\":[],\"asks\":null", "\"bids\":null,\"asks\":null"),
        ("refusals", "sed 's/\"place\":[0-9]*/\"place\":null/'", "\"place\":null", "\"place\":"),
        ("refusals", "sed 's/\"answer\":11,/\"answer\":12,/'", "\"answer\":12,", "\"answer\":11,"),
        ("refusals", "sed 's/has a bad digit/has bad digits/'", "has bad digits\"", "has a bad digit\""),
        ("gaps", "sed 's/\"heard\":/\"heard\":1/'", "\"heard\":1", "{\"highest\":"),
        ("board", "sed 's/\"trade\":{.*},\"bids\"/\"trade\":null,\"bids\"/'", "\"trade\":null,", "\"trade\":{"),
        ("board", "sed '$p'", "{\"code\":", "no such row"),
        ("numbers", "sed 's/ new$/ repeat/'", " repeat", " new"),
        ("numbers", "sed 's/^give-up [1-9].*-/give-up 1-/'", "give-up 1-", "give-up "),
        ("numbers", "sed 's/ given-up [1-9].*/ given-up 0/'", " given-up 0", " given-up "),
        ("table", "sed '3s/ 25 / 26 /'", " 24  26  26 ", " 24  25  26 "),
    ] {
        let (status, text) = compare(program, behind, "300");
        assert_eq!(status, Some(1), "{text}");
        assert!(text.contains("differs\n"), "{text}");
        let row = |name: &str| text.lines().find(|line| line.starts_with(name)).unwrap_or_default().to_string();
        assert!(row("  proved: ").contains(proved), "{text}");
        assert!(row("  second: ").contains(second), "{text}");
        assert_eq!(text.contains("\nfrom "), ["messages", "refusals"].contains(&program), "{text}");
    }
}

#[test]
fn a_difference_where_runs_are_given_up() {
    // Only with give-up are numbers refused with 25, once the ledger was full.
    let (status, text) = compare("gaps", "sed 's/\"refused\":25/\"refused\":22/'", "25000");
    assert_eq!(status, Some(1), "{text}");
    assert!(text.contains("line 1: gaps give-up: row "), "{text}");
    assert!(text.contains("\n  second: {\"refused\":25,"), "{text}");
}

#[test]
fn a_difference_on_a_derivatives_line() {
    for (program, behind, proved, second) in [
        ("listing", "sed 's/,I060,/,60,/'", ",60,", ",I060,"),
        ("messages", "sed 's/\"kind\":\"I064\"/\"kind\":64/'", "\"kind\":64,", "\"kind\":\"I064\","),
        ("refusals", "sed 's/not 12 or 17/neither 12 nor 17/'", "neither 12 nor 17", "not 12 or 17"),
    ] {
        let (status, text) = compare(program, behind, "300");
        assert_eq!(status, Some(1), "{text}");
        let first = format!("line 1 of the derivatives exchange: {program} derivatives-2015: row ");
        assert!(text.contains(&first) && text.contains(" second answers ") && text.contains("\nfrom "), "{text}");
        let row = |name: &str| text.lines().find(|line| line.starts_with(name)).unwrap_or_default().to_string();
        assert!(row("  proved: ").contains(proved), "{text}");
        assert!(row("  second: ").contains(second), "{text}");
    }
}
