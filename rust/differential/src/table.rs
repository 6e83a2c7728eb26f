//! The counts as text, and what was expected but never came up.

use crate::counts::{expected, Counts, Group, KINDS, REFUSING};

pub fn print(counts: &Counts) {
    refusals(counts);
    for (group, title, names) in KINDS {
        println!("\n{title}:");
        for (cell, name) in names.iter().enumerate() {
            println!("  {name:<16} {:>12}", counts.of(group, cell));
        }
    }
    println!("\ndemand 3, put to the test:");
    for (name, count) in watched(counts) {
        println!("  {name:<44} {count:>12}");
    }
}

/// A row a number, a column a call; a dot where the number cannot come.
fn refusals(counts: &Counts) {
    print!("{:>6}", "number");
    REFUSING.iter().for_each(|call| print!(" {:>10}", format!("{call:?}").to_lowercase()));
    println!();
    for number in (0..=20).chain([27]) {
        print!("{number:>6}");
        for call in REFUSING {
            let count = counts.of(call, number);
            let cell =
                if count == 0 && !expected(call).contains(&number) { ".".to_string() } else { count.to_string() };
            print!(" {cell:>10}");
        }
        println!();
    }
}

fn watched(counts: &Counts) -> [(&'static str, u64); 13] {
    let seen = &counts.seen;
    [
        ("ticks watched", seen.ticks),
        ("1: stays ended", seen.stays_ended),
        ("1: stays of all of R + X", seen.stays_full),
        ("2: inner stays begun", seen.pairs_entered),
        ("2: with just the enter spacing", seen.pairs_entered_tight),
        ("3: outer stays ended after an inner one", seen.pairs_left),
        ("3: with just the exit spacing", seen.pairs_left_tight),
        ("4: returns of the base", seen.base_returns),
        ("4: after all of LS", seen.base_full),
        ("5: requests in a rested yard", seen.rested_requests),
        ("5: blades started on time", seen.blades_on_time),
        ("5: requests disturbed", seen.disturbed),
        ("6: tick ends with the base home", seen.base_home),
    ]
}

/// What must come up in a comparison that is worth the name, and did not.
pub fn missing(counts: &Counts) -> Vec<String> {
    let numbers = REFUSING.into_iter().flat_map(|call| {
        let never = move |number: &usize| counts.of(call, *number) == 0;
        expected(call).into_iter().filter(never).map(move |number| format!("{call:?} never answered {number}"))
    });
    let kinds = KINDS.into_iter().flat_map(|(group, title, names)| {
        let never = move |(cell, _): &(usize, &&str)| counts.of(group, *cell) == 0;
        names.iter().enumerate().filter(never).map(move |(_, name)| format!("{title}: never {name}"))
    });
    let watch = watched(counts).into_iter().filter(|(_, count)| *count == 0);
    numbers.chain(kinds).chain(watch.map(|(name, _)| format!("demand 3, never {name}"))).collect()
}

/// All cases that were compared.
pub fn total(counts: &Counts) -> u64 {
    (0..crate::kinds::NAMES.len()).map(|kind| counts.of(Group::Cases, kind)).sum()
}
