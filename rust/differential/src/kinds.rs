//! The kinds of case, and which of them the case with a given number is.

use crate::trials::{both_ways, chain, file, plan, run, sizes, text, tick, watch, write, Trial};

#[derive(Clone, Copy, PartialEq, Eq, Debug)]
pub enum Kind {
    Check,
    Fresh,
    Tick,
    Run,
    Read,
    Write,
    BothWays,
    Find,
    Header,
    List,
    Sizes,
    Chain,
    Watch,
}

pub const NAMES: [&str; 13] = [
    "check",
    "fresh",
    "tick",
    "run",
    "read",
    "write",
    "both-ways",
    "find",
    "header",
    "list",
    "sizes",
    "chain",
    "watch",
];

/// The shares of all kinds together.
const ROUND: u64 = 320;

/// How many of a round's cases are of each kind. A watched roll has hundreds of ticks, so that few of them are many.
const SHARES: [(Kind, u64); 13] = [
    (Kind::Check, 40),
    (Kind::Fresh, 16),
    (Kind::Tick, 64),
    (Kind::Run, 40),
    (Kind::Read, 24),
    (Kind::Write, 40),
    (Kind::BothWays, 24),
    (Kind::Find, 24),
    (Kind::Header, 8),
    (Kind::List, 20),
    (Kind::Sizes, 16),
    (Kind::Chain, 3),
    (Kind::Watch, 1),
];

impl Kind {
    /// The kind of the case with this number; kinds are mixed, so that a short run has all of them.
    pub fn of_case(number: u64) -> Kind {
        let mut left = number % ROUND * 167 % ROUND;
        for (kind, share) in SHARES {
            if left < share {
                return kind;
            }
            left -= share;
        }
        Kind::Check
    }

    pub fn name(self) -> &'static str {
        NAMES[self as usize]
    }

    pub fn named(name: &str) -> Option<Kind> {
        SHARES.into_iter().map(|(kind, _)| kind).find(|kind| kind.name() == name)
    }

    /// The case of this kind and seed; nothing else decides it.
    pub fn trial(self, seed: u64) -> Box<dyn Trial> {
        match self {
            Kind::Check => Box::new(plan::Check::of(seed)),
            Kind::Fresh => Box::new(plan::Fresh::of(seed)),
            Kind::Tick => Box::new(tick::Tick::of(seed)),
            Kind::Run => Box::new(run::Run::of(seed)),
            Kind::Read => Box::new(file::Read::of(seed)),
            Kind::Write => Box::new(write::Write::of(seed)),
            Kind::BothWays => Box::new(both_ways::BothWays::of(seed)),
            Kind::Find => Box::new(file::Find::of(seed)),
            Kind::Header => Box::new(text::Header::of(seed)),
            Kind::List => Box::new(text::List::of(seed)),
            Kind::Sizes => Box::new(sizes::Sizes::of(seed)),
            Kind::Chain => Box::new(chain::Chain::of(seed)),
            Kind::Watch => Box::new(watch::Watch::of(seed)),
        }
    }
}
