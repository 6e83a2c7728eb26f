//! How often each refusal and each kind of answer came up, and which of them must.

use model::watch::Seen;

/// Most cells that a group has: the refusals 0 to 27.
const CELLS: usize = 28;

#[derive(Clone, Copy, PartialEq, Eq, Debug)]
pub enum Group {
    Check,
    Fresh,
    Tick,
    Run,
    Read,
    Write,
    List,
    Cases,
    Down,
    Base,
    Place,
    Letter,
    Piece,
    Room,
    Short,
    Header,
    Devices,
    State,
    Roll,
    Sizes,
    Ticks,
}

use Group::*;

/// The calls that answer a refusal.
pub const REFUSING: [Group; 7] = [Check, Fresh, Tick, Run, Read, Write, List];

/// The groups of kinds of answers and inputs, with the name of each cell; every named cell must be hit.
pub const KINDS: [(Group, &str, &[&str]); 14] = [
    (Cases, "cases", &crate::kinds::NAMES),
    (Down, "down letter sent", &["none", "LeaseReq", "Grant", "Cancel", "Abort"]),
    (Base, "base in accepted ends", &["Fall-Back", "Lease", "Cancel", "Abort"]),
    (Place, "place", &["Fall-Back", "Requesting", "Entering", "Running", "Exiting 1", "Exiting 2"]),
    (Letter, "letter that waits", &["none", "Approve", "Deny"]),
    (Piece, "piece found", &["trailer", "short file", "body", "leftover", "record", "empty"]),
    (Room, "room lent for a file", &crate::trials::write::ROOMS),
    (Short, "refused with 20, by N", &["2", "3", "4", "5", "6", "7", "8"]),
    (Header, "header", &["written", "above 8 devices", "no room"]),
    (Devices, "devices of accepted plans", &["2", "3", "4", "5", "6", "7", "8"]),
    (State, "state lent", &["fresh", "in use", "not well formed", "malformed bytes"]),
    (Roll, "roll lent", &["empty", "good", "bad record", "leftover bytes"]),
    (Sizes, "lengths lent (plan/yard)", &crate::trials::sizes::NAMES),
    (Ticks, "ticks done", &["tick", "run", "list", "chain", "watch"]),
];

/// The numbers that a call must have answered at least once.
pub fn expected(call: Group) -> Vec<usize> {
    let mut numbers: Vec<usize> = match call {
        Check | Fresh => (0..=9).collect(),
        Tick => (0..=11).collect(),
        Run => (0..=13).collect(),
        // A file's N is that of its length, so that 1 cannot come.
        Read => [0].into_iter().chain(2..=9).chain(14..=19).collect(),
        Write => (0..=9).chain([20]).collect(),
        _ => (0..=12).collect(),
    };
    numbers.push(27);
    numbers
}

#[derive(Clone, Debug)]
pub struct Counts {
    cells: [[u64; CELLS]; Ticks as usize + 1],
    pub seen: Seen,
}

impl Counts {
    pub fn new() -> Counts {
        Counts { cells: [[0; CELLS]; Ticks as usize + 1], seen: Seen::default() }
    }

    pub fn of(&self, group: Group, cell: usize) -> u64 {
        self.cells[group as usize][cell]
    }

    pub fn hit(&mut self, group: Group, cell: usize) {
        self.more(group, cell, 1);
    }

    pub fn more(&mut self, group: Group, cell: usize, times: u64) {
        self.cells[group as usize][cell] += times;
    }

    pub fn add(&mut self, other: &Counts) {
        for (row, more) in self.cells.iter_mut().zip(&other.cells) {
            for (cell, more) in row.iter_mut().zip(more) {
                *cell += more;
            }
        }
        self.seen.add(&other.seen);
    }
}
