//! Plans, rolls and files to be timed; the same in every run.

use model::bytes::{plan_to_bytes, PLAN};
use model::gen::{files, plans, rolls, Rng};
use model::{Plan, Slot};

/// Records of a roll, in pieces that have each their own rates.
pub const RECORDS: usize = 262_144;
const PIECE: usize = 4_096;
/// Plans or files of one array.
pub const MANY: usize = 4_096;

fn first_of(rng: &mut Rng, n: u16, make: fn(&mut Rng) -> Plan, keep: impl Fn(&Plan) -> bool) -> Plan {
    std::iter::repeat_with(|| make(rng)).find(|plan| plan.n == n && keep(plan)).unwrap_or_default()
}

/// Plan P for two devices, else a plan with small times: devices move in most ticks of a busy roll.
pub fn plan(n: u16) -> Plan {
    if n != 2 {
        return first_of(&mut Rng::new(1), n, plans::lively, |_| true);
    }
    let mut plan = Plan { n: 2, w: 1, b: 1, q: 3, ..Plan::default() };
    plan.slots[0] = Slot { f: 1, e: 1, r: 7, x: 2, g: 1, s: 1 };
    plan.slots[1] = Slot { f: 1, e: 3, r: 2, x: 1, g: 0, s: 0 };
    plan
}

pub fn busy(plan: &Plan) -> Vec<u8> {
    let rng = &mut Rng::new(2);
    (0..RECORDS / PIECE).flat_map(|_| rolls::busy(rng, plan, PIECE)).collect()
}

pub fn quiet(plan: &Plan) -> Vec<u8> {
    rolls::quiet(&mut Rng::new(3), plan, RECORDS)
}

/// What a roll has in it, in hundredths of its records.
pub fn mix(plan: &Plan, roll: &[u8]) -> String {
    let all_willing = (1u32 << (plan.n - 1)) as u8 - 1;
    let share = |what: &dyn Fn(&[u8]) -> bool| {
        let count = roll.chunks_exact(4).filter(|record| what(record)).count();
        format!("{:.0}%", 100.0 * count as f64 / (roll.len() / 4) as f64)
    };
    format!(
        "request {}, cancel {}, approval fails {}, down letter lost {}, some up letter lost {}, someone unwilling {}",
        share(&|r| r[0] == 1),
        share(&|r| r[0] == 2),
        share(&|r| r[1] & 1 == 0),
        share(&|r| r[1] & 2 != 0),
        share(&|r| r[3] != 0),
        share(&|r| r[2] != all_willing),
    )
}

pub fn accepted(n: u16) -> Vec<[u8; PLAN]> {
    let rng = &mut Rng::new(4);
    (0..MANY).map(|_| plan_to_bytes(&first_of(rng, n, plans::accepted, |_| true))).collect()
}

/// One half accepted, one half refused, in no order.
pub fn mixed(n: u16) -> Vec<[u8; PLAN]> {
    let rng = &mut Rng::new(5);
    let one = |_| {
        let refused = rng.chance(1, 2);
        let make = if refused { plans::edge } else { plans::accepted };
        plan_to_bytes(&first_of(rng, n, make, |plan| refused != model::check(plan).accepted()))
    };
    (0..MANY).map(one).collect()
}

/// Files of accepted plans of n devices, with short notes.
pub fn good_files(n: u16) -> Vec<Vec<u8>> {
    let rng = &mut Rng::new(6);
    let one = |_| files::file_of(&first_of(rng, n, plans::accepted, |_| true), b"gate notes", b"");
    (0..MANY).map(one).collect()
}

/// Files of every kind, but none so long that copying it is all the work.
pub fn any_files() -> Vec<Vec<u8>> {
    let rng = &mut Rng::new(7);
    std::iter::repeat_with(|| files::any(rng)).filter(|file| file.len() < 1_000).take(MANY).collect()
}
