//! The library beside the model, call by call, over millions of cases.
#![forbid(unsafe_code)]

mod answer;
mod args;
mod counts;
mod field;
mod kinds;
mod lent;
mod table;
mod trials;

use args::Command;
use field::{Asked, Difference};
use kinds::Kind;
use std::process::ExitCode;
use std::time::Instant;

fn main() -> ExitCode {
    let agreed = match args::parse(std::env::args().skip(1)) {
        Ok(Command::All(asked)) => all(&asked),
        Ok(Command::Replay { kind, seed, spoiled }) => replay(kind, seed, spoiled),
        Ok(Command::Help) => {
            println!("{}", args::HELP);
            true
        }
        Err(wrong) => {
            eprintln!("differential: {wrong}");
            return ExitCode::from(2);
        }
    };
    if agreed {
        ExitCode::SUCCESS
    } else {
        ExitCode::FAILURE
    }
}

fn all(asked: &Asked) -> bool {
    let start = Instant::now();
    let (counts, difference) = field::run(asked);
    table::print(&counts);
    let (cases, seconds) = (table::total(&counts), start.elapsed().as_secs_f64());
    println!("\n{cases} cases with seed {} in {seconds:.1} seconds, {} threads", asked.seed, asked.threads);
    if let Some(difference) = &difference {
        report(difference, asked.spoil.is_some());
        return false;
    }
    let missing = table::missing(&counts);
    missing.iter().for_each(|what| println!("missing: {what}"));
    if missing.is_empty() {
        println!("no difference");
    }
    missing.is_empty()
}

fn report(difference: &Difference, spoiled: bool) {
    let (kind, seed) = (difference.kind.name(), difference.seed);
    println!("differs: {kind} {seed}");
    println!("  in {}", difference.what.join(", "));
    println!("  replay: differential --replay {kind} {seed}{}", if spoiled { " --spoil 1" } else { "" });
}

fn replay(kind: Kind, seed: u64, spoiled: bool) -> bool {
    let trial = kind.trial(seed);
    for (name, value) in trial.input() {
        println!("{name}: {value}");
    }
    let (library, model) = field::both(trial.as_ref(), seed, spoiled);
    for (who, answer) in [("library", &library), ("model", &model)] {
        println!("{who}:");
        answer.lines().iter().for_each(|line| println!("  {line}"));
    }
    if library == model {
        println!("agrees: {} {seed}", kind.name());
        return true;
    }
    println!("differs: {} {seed}", kind.name());
    println!("  in {}", library.differing(&model).join(", "));
    false
}
