//! The library's time beside that of plain Rust.
#![forbid(unsafe_code)]

mod args;
mod border;
mod contest;
mod contests;
mod yards;

use args::{Asked, Command, Which};
use contests::Make;
use std::process::ExitCode;

fn main() -> ExitCode {
    let done = match args::parse(std::env::args().skip(1)) {
        Ok(Command::Measure(asked)) => measure(&asked),
        Ok(Command::Names) => {
            contests::all().iter().for_each(|(name, _)| println!("{name}"));
            Ok(())
        }
        Ok(Command::Help) => {
            println!("{}", args::HELP);
            Ok(())
        }
        Err(wrong) => Err(wrong),
    };
    if let Err(wrong) = done {
        eprintln!("bench: {wrong}");
        return ExitCode::FAILURE;
    }
    ExitCode::SUCCESS
}

/// The contests asked for: that of this very name, else all that begin with it.
fn chosen(only: Option<&str>) -> Vec<(String, Make)> {
    let all = contests::all();
    let Some(only) = only else {
        return all;
    };
    let exact = all.iter().any(|(name, _)| name == only);
    all.into_iter().filter(|(name, _)| if exact { name == only } else { name.starts_with(only) }).collect()
}

fn measure(asked: &Asked) -> Result<(), String> {
    let chosen = chosen(asked.only.as_deref());
    if chosen.is_empty() {
        return Err("no contest has this name; see --names".to_string());
    }
    if let Some(side) = asked.side {
        return alone(&chosen, side, asked.loops);
    }
    println!("{} pairs of measurements each; load before: {}", asked.runs, load());
    println!(
        "{:<24} {:>10} {:>10} {:>10} {:>7} {:>7} {:>8} {:>7}",
        "", "", "library", "plain", "ratio", "least", "greatest", "on cpu"
    );
    let mut notes: Vec<String> = Vec::new();
    for (name, make) in &chosen {
        let note = one(name, make, asked.runs)?;
        notes.push(format!("  {name}: {note}"));
    }
    println!("load after: {}\n\nwhat was done:", load());
    notes.iter().for_each(|note| println!("{note}"));
    Ok(())
}

fn one(name: &str, make: &Make, runs: usize) -> Result<String, String> {
    let mut contest = make();
    if !(contest.agree)() {
        return Err(format!("{name}: library and plain answer differently"));
    }
    let result = contest.measure(runs);
    println!(
        "{name:<24} {:>10} {:>10} {:>10} {:>7.2} {:>7.2} {:>8.2} {:>7}",
        contest.unit.name(),
        contest.unit.told(result.library),
        contest.unit.told(result.plain),
        result.ratio,
        result.least,
        result.greatest,
        result.on_cpu.map_or("?".to_string(), |share| format!("{:.0}%", 100.0 * share)),
    );
    Ok(contest.note)
}

/// One side and nothing else, to be counted from outside.
fn alone(chosen: &[(String, Make)], side: Which, loops: usize) -> Result<(), String> {
    let [(name, make)] = chosen else {
        return Err("--side takes one contest; see --names".to_string());
    };
    let mut contest = make();
    let work = if side == Which::Library { &mut contest.library } else { &mut contest.plain };
    for _ in 0..loops {
        work();
    }
    println!("{name}: {loops} loops of {} items", contest.items);
    Ok(())
}

/// The machine's load, where it tells.
fn load() -> String {
    let text = std::fs::read_to_string("/proc/loadavg").unwrap_or_default();
    let figures: Vec<&str> = text.split_whitespace().take(3).collect();
    if figures.is_empty() {
        return "not known".to_string();
    }
    figures.join(" ")
}
