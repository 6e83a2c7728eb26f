//! Fresh yard, well-formed states, one tick and a run, with their refusals in the specification's order.

use crate::check::check;
use crate::steps::steps;
use crate::types::{Base, Device, Down, Letter, Place, Plan, Record, Verdict, Yard, SLOTS};

/// "A fresh yard for a refused plan answers the refusal and the same fresh state."
pub fn fresh(plan: &Plan) -> (Verdict, Yard) {
    (check(plan), Yard::FRESH)
}

pub fn well_formed(plan: &Plan, yard: &Yard) -> bool {
    base_well_formed(plan, yard) && (1..=SLOTS).all(|i| device_well_formed(plan, i, &yard.device(i)))
}

/// "every i is 1..N; the place clock is at most B in Fall-Back, below W in Lease i with i < N, else 0; the lease
/// clock is 0 in Fall-Back, else below LS"
fn base_well_formed(plan: &Plan, yard: &Yard) -> bool {
    let n = plan.devices();
    let among = |i: u8| (1..=n).contains(&(i as usize));
    let lease_runs = (yard.lease as usize) < plan.ls();
    match yard.base {
        Base::FallBack => yard.clock <= plan.b && yard.lease == 0,
        Base::Lease(i) if (i as usize) < n => among(i) && yard.clock < plan.w && lease_runs,
        Base::Lease(i) | Base::Cancel(i) | Base::Abort(i) => among(i) && yard.clock == 0 && lease_runs,
    }
}

fn device_well_formed(plan: &Plan, i: usize, device: &Device) -> bool {
    let n = plan.devices();
    if i > n {
        return *device == Device::FRESH;
    }
    clock_well_formed(plan, i, device)
        && (device.place != Place::Requesting || i == n)
        && (device.letter == Letter::None || (i < n && letter_may_wait(device)))
}

fn clock_well_formed(plan: &Plan, i: usize, device: &Device) -> bool {
    let times = plan.slot(i);
    match device.place {
        Place::FallBack => device.clock <= times.f,
        Place::Requesting => device.clock < plan.q,
        Place::Entering => device.clock < times.e,
        Place::Running => device.clock < times.r,
        Place::Exiting1 | Place::Exiting2 => device.clock < times.x,
    }
}

/// "Approve only in Entering with clock 0, Deny only in Fall-Back with clock 0"; no other letter waits between ticks.
fn letter_may_wait(device: &Device) -> bool {
    match device.letter {
        Letter::None => true,
        Letter::Approve => device.place == Place::Entering && device.clock == 0,
        Letter::Deny => device.place == Place::FallBack && device.clock == 0,
        Letter::Request | Letter::Cancel | Letter::Exit => false,
    }
}

/// "All other bits zero (bits N-1 and up of byte 2, bits N and up of byte 3)."
pub fn good_record(plan: &Plan, record: Record) -> bool {
    let n = plan.devices();
    record.command <= 2
        && record.flags <= 3
        && (record.willing as usize) < 1 << n.saturating_sub(1)
        && (record.lost as usize) < 1 << n
}

/// Plan (1 to 9), then state (11).
pub(crate) fn plan_and_state(plan: &Plan, yard: &Yard) -> Verdict {
    let verdict = check(plan);
    if verdict.accepted() && !well_formed(plan, yard) {
        return Verdict::refused(11, 0);
    }
    verdict
}

/// What calls that take a yard's bytes answer for bytes that are no yard's: the plan's refusal, else 11.
pub fn malformed(plan: &Plan) -> Verdict {
    let verdict = check(plan);
    if verdict.accepted() {
        return Verdict::refused(11, 0);
    }
    verdict
}

/// A roll under an accepted plan: its length (12), then the first bad record of the whole roll (10).
pub fn roll_verdict(plan: &Plan, roll: &[u8]) -> Verdict {
    if !roll.len().is_multiple_of(4) {
        return Verdict::refused(12, 0);
    }
    match records(roll).position(|record| !good_record(plan, record)) {
        Some(before) => Verdict::refused(10, before + 1),
        None => Verdict::ACCEPTED,
    }
}

/// The whole records of a roll, in order.
pub fn records(roll: &[u8]) -> impl Iterator<Item = Record> + '_ {
    roll.chunks_exact(4).map(|four| Record { command: four[0], flags: four[1], willing: four[2], lost: four[3] })
}

/// "A single tick is refused for its plan (1 to 9), then its state (11), then its record (10), and then answers number,
/// index and the state it was given."
pub fn tick(plan: &Plan, yard: &Yard, record: Record) -> (Verdict, Yard, Down) {
    let mut verdict = plan_and_state(plan, yard);
    if verdict.accepted() && !good_record(plan, record) {
        verdict = Verdict::refused(10, 1);
    }
    if !verdict.accepted() {
        return (verdict, *yard, Down::None);
    }
    let (after, down) = steps(plan, yard, record);
    (verdict, after, down)
}

/// "It does the smaller of budget and records, and answers the end state and the ticks done."
pub fn run(plan: &Plan, yard: &Yard, roll: &[u8], budget: usize, engaged: &mut [u8]) -> (Verdict, Yard, usize) {
    let ticks = budget.min(roll.len() / 4);
    let verdict = run_verdict(plan, yard, roll, ticks, engaged.len());
    if !verdict.accepted() {
        return (verdict, *yard, 0);
    }
    let mut now = *yard;
    for (byte, record) in engaged.iter_mut().zip(records(roll)).take(ticks) {
        now = steps(plan, &now, record).0;
        *byte = now.engaged(plan.devices());
    }
    (verdict, now, ticks)
}

/// Plan (1 to 9), state (11), length (12), any bad record in the whole roll (10), buffer too short (13).
fn run_verdict(plan: &Plan, yard: &Yard, roll: &[u8], ticks: usize, lent: usize) -> Verdict {
    let mut verdict = plan_and_state(plan, yard);
    if verdict.accepted() {
        verdict = roll_verdict(plan, roll);
    }
    if verdict.accepted() && lent < ticks {
        verdict = Verdict::refused(13, 0);
    }
    verdict
}
