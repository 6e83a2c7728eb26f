//! The comparison can fail: one flipped bit of the library's answer is found, named, and comes again in a replay.

use std::process::{Command, Output};

const KINDS: [&str; 13] = [
    "check",
    "fresh",
    "tick",
    "run",
    "read",
    "write",
    "both-ways",
    "find",
    "header",
    "list",
    "sizes",
    "chain",
    "watch",
];

fn differential(args: &[&str]) -> Output {
    Command::new(env!("CARGO_BIN_EXE_differential")).args(args).output().expect("the program runs")
}

fn text(output: &Output) -> String {
    String::from_utf8_lossy(&output.stdout).into_owned()
}

/// Kind and seed of the line `differs: KIND SEED`.
fn differs(output: &Output) -> Option<(String, String)> {
    let text = text(output);
    let line = text.lines().find_map(|line| line.strip_prefix("differs: "))?;
    let (kind, seed) = line.split_once(' ')?;
    Some((kind.to_string(), seed.to_string()))
}

#[test]
fn a_flipped_bit_is_found_in_every_kind() {
    let mut kinds = std::collections::BTreeSet::new();
    // The case with this number is the first that is spoiled, so that it must be the one that is reported.
    for every in 1..=320 {
        let output = differential(&["--cases", "320", "--spoil", &every.to_string()]);
        assert_eq!(output.status.code(), Some(1), "{every}");
        let (kind, seed) = differs(&output).expect("a difference is reported");
        assert_eq!(seed.parse::<u64>().unwrap(), (1u64 << 40) ^ (every - 1));
        kinds.insert(kind);
    }
    assert!(KINDS.iter().all(|kind| kinds.contains(*kind)) && kinds.len() == KINDS.len(), "{kinds:?}");
}

#[test]
fn every_kind_is_replayed() {
    for (kind, seed) in KINDS.iter().flat_map(|kind| ["5", "6", "7"].map(|seed| (*kind, seed))) {
        let (spoiled, unspoiled) = (&["--replay", kind, seed, "--spoil", "1"], &["--replay", kind, seed]);
        let output = differential(spoiled);
        assert_eq!(output.status.code(), Some(1), "{kind} {seed}");
        assert_eq!(differs(&output), Some((kind.to_string(), seed.to_string())));
        let output = differential(unspoiled);
        assert_eq!(output.status.code(), Some(0), "{kind} {seed}");
        assert!(text(&output).contains(&format!("agrees: {kind} {seed}")));
    }
}

#[test]
fn the_difference_is_replayed() {
    let found = differential(&["--cases", "5000", "--seed", "9", "--threads", "3", "--spoil", "1234"]);
    assert_eq!(found.status.code(), Some(1));
    let (kind, seed) = differs(&found).expect("a difference is reported");
    assert!(text(&found).contains(&format!("replay: differential --replay {kind} {seed} --spoil 1")));

    let again = differential(&["--replay", &kind, &seed, "--spoil", "1"]);
    assert_eq!(again.status.code(), Some(1));
    assert_eq!(differs(&again), Some((kind.clone(), seed.clone())));
    assert!(text(&again).contains("library:") && text(&again).contains("model:"));

    // Without the flipped bit the same case agrees: the difference was the bit's alone.
    let unspoiled = differential(&["--replay", &kind, &seed]);
    assert_eq!(unspoiled.status.code(), Some(0));
    assert!(text(&unspoiled).contains(&format!("agrees: {kind} {seed}")));
}

#[test]
fn a_number_that_never_comes_is_missing() {
    let few = differential(&["--cases", "100"]);
    assert_eq!(few.status.code(), Some(1));
    assert!(text(&few).contains("missing: Write never answered "));
    assert!(text(&few).contains("missing: refused with 20, by N: never "));
    assert_eq!(differs(&few), None);
}

#[test]
fn a_wrong_command_line_is_told() {
    assert_eq!(differential(&["--replay", "mow", "1"]).status.code(), Some(2));
    assert_eq!(differential(&["--cases"]).status.code(), Some(2));
    assert_eq!(differential(&["--help"]).status.code(), Some(0));
}
