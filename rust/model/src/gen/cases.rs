//! One whole call from one seed.

use super::{files, plans, rolls, states, Rng};
use crate::bytes::YARD;
use crate::file::read;
use crate::types::{Plan, Record};

/// Keeps the kinds of case apart, so that equal seeds of two kinds draw different numbers.
fn start(kind: u64, seed: u64) -> Rng {
    let mut rng = Rng::new(seed ^ kind.wrapping_mul(0xD134_2543_DE82_EF95));
    rng.draw();
    rng
}

/// For check and fresh.
pub fn check_case(seed: u64) -> Plan {
    plans::any(&mut start(1, seed))
}

#[derive(Clone, Debug, PartialEq, Eq)]
pub struct TickCase {
    pub plan: Plan,
    pub yard: [u8; YARD],
    pub record: Record,
}

pub fn tick_case(seed: u64) -> TickCase {
    let rng = &mut start(2, seed);
    let plan = plans::mostly_accepted(rng);
    let yard = states::any(rng, &plan);
    let bytes = rolls::valid(rng, &plan, 1);
    let mut record = Record::from_bytes([bytes[0], bytes[1], bytes[2], bytes[3]]);
    if rng.chance(1, 16) {
        record = rolls::bad_record(rng, &plan);
    }
    TickCase { plan, yard, record }
}

/// `engaged` is the length of the buffer to lend.
#[derive(Clone, Debug, PartialEq, Eq)]
pub struct RunCase {
    pub plan: Plan,
    pub yard: [u8; YARD],
    pub roll: Vec<u8>,
    pub budget: usize,
    pub engaged: usize,
}

/// Mostly short rolls, since refusals and single moves need no more; now and then a long one.
fn roll_length(rng: &mut Rng) -> usize {
    let most = rng.pick(&[0, 3, 20, 60, 60, 250]);
    rng.within(0, most)
}

pub fn run_case(seed: u64) -> RunCase {
    let rng = &mut start(3, seed);
    let plan = plans::mostly_accepted(rng);
    let yard = states::any(rng, &plan);
    let length = roll_length(rng);
    let roll = rolls::any(rng, &plan, length);
    let records = roll.len() / 4;
    let fewer = rng.below(records + 1);
    let budget = rng.pick(&[records, records, records, fewer, records + 1, usize::MAX, 0]);
    let ticks = budget.min(records);
    let short = rng.below(ticks.max(1));
    let engaged = rng.pick(&[ticks, ticks, ticks, ticks + 1, ticks + 9, short, ticks.saturating_sub(1)]);
    RunCase { plan, yard, roll, budget, engaged }
}

/// `room` is the length of the text to lend.
#[derive(Clone, Debug, PartialEq, Eq)]
pub struct ListCase {
    pub plan: Plan,
    pub yard: [u8; YARD],
    pub roll: Vec<u8>,
    pub first: u32,
    pub room: usize,
}

/// `first` stays so far below 2^32 that no line's number passes it.
pub fn list_case(seed: u64) -> ListCase {
    let rng = &mut start(4, seed);
    let plan = plans::mostly_accepted(rng);
    let yard = states::any(rng, &plan);
    let length = roll_length(rng);
    let roll = rolls::any(rng, &plan, length);
    let first = rng.pick(&[0, 0, 8, 9, 98, 9_990, 99_999, 999_999_990, u32::MAX - 100_000]);
    let enough = 64 * (length + 1);
    let some = rng.below(enough);
    let room = rng.pick(&[enough, enough, some, 63, 64, 90, 0]);
    ListCase { plan, yard, roll, first, room }
}

/// For the reader, the finder and the program.
#[derive(Clone, Debug, PartialEq, Eq)]
pub struct FileCase {
    pub file: Vec<u8>,
    pub roll: Vec<u8>,
}

pub fn file_case(seed: u64) -> FileCase {
    let rng = &mut start(5, seed);
    let file = files::any(rng);
    let (_, taken) = read(&file);
    let plan = if taken.n == 0 { plans::lively(rng) } else { taken };
    let most = rng.pick(&[0, 3, 30]);
    let ticks = rng.within(0, most);
    let roll = rolls::any(rng, &plan, ticks);
    FileCase { file, roll }
}

/// An accepted plan and a valid roll, to be run from the fresh yard.
#[derive(Clone, Debug, PartialEq, Eq)]
pub struct WatchCase {
    pub plan: Plan,
    pub roll: Vec<u8>,
}

pub fn watch_case(seed: u64) -> WatchCase {
    let rng = &mut start(6, seed);
    let plan = if rng.chance(1, 4) { plans::tight(rng) } else { plans::lively(rng) };
    let ticks = rng.within(100, 1_500);
    let roll = rolls::valid(rng, &plan, ticks);
    WatchCase { plan, roll }
}

/// `room` is the length of the buffer to lend for the file.
#[derive(Clone, Debug, PartialEq, Eq)]
pub struct WriteCase {
    pub plan: Plan,
    pub room: usize,
}

/// Room from none to more than the plan's file takes, mostly within a byte of it; also where the plan is refused, since
/// its number comes first.
pub fn write_case(seed: u64) -> WriteCase {
    let rng = &mut start(7, seed);
    let plan = if rng.chance(1, 2) { plans::accepted(rng) } else { plans::any(rng) };
    let whole = 18 + 12 * plan.devices();
    let (short, long) = (rng.below(whole), rng.within(whole + 2, 2 * whole));
    let room = rng.pick(&[whole - 1, whole, whole, whole + 1, short, long, whole - 12, 0]);
    WriteCase { plan, room }
}
