//! The same answers as the clear half, written for speed with plain idioms: the yard moves in place, one pass over the
//! devices a tick, u16 and u32 arithmetic, nothing allocated.

mod check;
mod file;
mod list;
mod state;
mod step;

pub use check::check;
pub use file::{read, write};
pub use list::{header, list};

use crate::types::{Plan, Verdict, Yard};
use state::state_is_good;
use step::Times;

/// Plan, state, length, then the first bad record of the whole roll.
fn verdict_of(plan: &Plan, yard: &Yard, roll: &[u8]) -> Verdict {
    let verdict = check(plan);
    if verdict.number != 0 {
        return verdict;
    }
    if !state_is_good(plan, yard) {
        return Verdict { number: 11, index: 0 };
    }
    if !roll.len().is_multiple_of(4) {
        return Verdict { number: 12, index: 0 };
    }
    let willing_bad = !0u8 << (plan.n - 1);
    let lost_bad = if plan.n == 8 { 0 } else { !0u8 << plan.n };
    let bad = |r: &[u8]| r[0] > 2 || r[1] > 3 || r[2] & willing_bad != 0 || r[3] & lost_bad != 0;
    match roll.chunks_exact(4).position(bad) {
        Some(k) => Verdict { number: 10, index: k + 1 },
        None => Verdict::ACCEPTED,
    }
}

/// Moves the yard by the smaller of budget and records and answers how many ticks that was.
pub fn run(plan: &Plan, yard: &mut Yard, roll: &[u8], budget: usize, engaged: &mut [u8]) -> (Verdict, usize) {
    let verdict = verdict_of(plan, yard, roll);
    if verdict.number != 0 {
        return (verdict, 0);
    }
    let ticks = budget.min(roll.len() / 4);
    let Some(bytes) = engaged.get_mut(..ticks) else {
        return (Verdict { number: 13, index: 0 }, 0);
    };
    let times = Times::of(plan);
    for (byte, r) in bytes.iter_mut().zip(roll.chunks_exact(4)) {
        *byte = times.step(yard, r[0], r[1], r[2], r[3]).1;
    }
    (verdict, ticks)
}
