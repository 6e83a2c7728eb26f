//! The command line.

use crate::field::Asked;
use crate::kinds::{Kind, NAMES};

pub const HELP: &str = "\
differential [--cases N] [--seed S] [--threads T] [--spoil K]
differential --replay KIND SEED [--spoil 1]

Compares every call of the library with the model: number, index, every answered number and every byte of every lent
buffer, with guard bytes around each. Prints how often each refusal and kind of answer came up. Exit 1 for a difference
(`differs: KIND SEED`, the first by number) and for an expected number or kind that never came up.

  --cases N    how many cases; 15,000,000 if not given. A case is one call, both ways between plan and file, or one whole
               chain or watched roll.
  --seed S     other seeds give other cases; 1 if not given
  --threads T  2 if not given; the cases and the first difference do not depend on it
  --replay     runs one case and prints its input and both answers; exit 1 if they differ
  --spoil K    a test of the comparison itself: flips one bit of the library's answer in every Kth case, so that the
               Kth case must be reported as a difference";

pub enum Command {
    All(Asked),
    Replay { kind: Kind, seed: u64, spoiled: bool },
    Help,
}

pub fn parse(mut words: impl Iterator<Item = String>) -> Result<Command, String> {
    let mut asked = Asked { cases: 15_000_000, seed: 1, threads: 2, spoil: None };
    let mut replay = None;
    while let Some(word) = words.next() {
        match word.as_str() {
            "--help" | "-h" => return Ok(Command::Help),
            "--cases" => asked.cases = number(&word, words.next())?,
            "--seed" => asked.seed = number(&word, words.next())?,
            "--threads" => asked.threads = number(&word, words.next())?,
            "--spoil" => asked.spoil = Some(number(&word, words.next())?),
            "--replay" => replay = Some((kind(words.next())?, number("--replay KIND", words.next())?)),
            _ => return Err(format!("{word}: not known; see --help")),
        }
    }
    Ok(match replay {
        Some((kind, seed)) => Command::Replay { kind, seed, spoiled: asked.spoil.is_some() },
        None => Command::All(asked),
    })
}

fn kind(word: Option<String>) -> Result<Kind, String> {
    let word = word.unwrap_or_default();
    Kind::named(&word).ok_or_else(|| format!("--replay takes a kind, one of {}", NAMES.join(", ")))
}

/// A number, with commas or underscores if they help.
fn number(name: &str, word: Option<String>) -> Result<u64, String> {
    let digits = word.unwrap_or_default().replace([',', '_'], "");
    digits.parse().map_err(|_| format!("{name} takes a number"))
}
