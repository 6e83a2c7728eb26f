//! Plans at or just over an edge of the table, damaged ones, and mixtures.

use super::Rng;
use crate::types::{Plan, Slot, LONGEST, SLOTS};

pub use super::accepted::{accepted, large, lively, tight};

/// A number of a plan as near to `t` as two bytes allow.
fn near(t: usize) -> u16 {
    t.min(u16::MAX as usize) as u16
}

/// An accepted plan with one number moved to where a condition is just kept or just broken.
pub fn edge(rng: &mut Rng) -> Plan {
    let mut plan = accepted(rng);
    let n = plan.devices();
    let i = rng.within(1, n - 1);
    let broken = rng.chance(2, 3) as usize;
    match rng.below(9) {
        0 => *any_number(rng, &mut plan, n) = rng.pick(&[0, 0, 1, LONGEST, LONGEST + 1]),
        1 => *beyond(rng, &mut plan) = 1,
        2 => plan.w = near(plan.ls().div_ceil(n) + broken - 1),
        3 => edge_c3(rng, &mut plan),
        4 => edge_c4(rng, &mut plan, broken),
        5 => plan.slots[i - 1].g = near((plan.slot(i + 1).e - plan.slot(i).e) as usize + broken - 1),
        6 => edge_c6(&mut plan, i, broken),
        7 => plan.slots[i - 1].s = near(plan.slot(i).x as usize + broken - 1),
        _ => {
            let number = any_number(rng, &mut plan, n);
            *number = if rng.chance(1, 2) { number.wrapping_add(1) } else { number.wrapping_sub(1) };
        }
    }
    plan
}

fn edge_c3(rng: &mut Rng, plan: &mut Plan) {
    let least = (plan.devices() - 1) * plan.w as usize;
    let ls = plan.ls();
    plan.q = near(rng.pick(&[least, least + 1, ls - 1, ls]));
}

/// The exit or run time of an inner device, so that (i-1) × W + E + R + X is LS, or LS + 1 when broken.
fn edge_c4(rng: &mut Rng, plan: &mut Plan, broken: usize) {
    let i = rng.within(2, plan.devices());
    let missing = plan.ls() + broken - (i - 1) * plan.w as usize - plan.slot(i).span();
    let slot = &mut plan.slots[i - 1];
    let part = if rng.chance(1, 2) { &mut slot.x } else { &mut slot.r };
    *part = near(*part as usize + missing);
}

/// The run time of i, so that E + R is W + E + R + X of i+1 when broken, one above it when not.
fn edge_c6(plan: &mut Plan, i: usize, broken: usize) {
    let inner = plan.w as usize + plan.slot(i + 1).span();
    plan.slots[i - 1].r = near(inner + 1 - broken - plan.slot(i).e as usize);
}

/// One of the numbers W, B, Q and of those of the first `slots` slots.
fn any_number<'a>(rng: &mut Rng, plan: &'a mut Plan, slots: usize) -> &'a mut u16 {
    let slot = rng.below(slots + 1);
    if slot == slots {
        return [&mut plan.w, &mut plan.b, &mut plan.q].into_iter().nth(rng.below(3)).expect("one of three");
    }
    number_of(rng, &mut plan.slots[slot], 0)
}

fn number_of<'a>(rng: &mut Rng, slot: &'a mut Slot, from: usize) -> &'a mut u16 {
    match rng.within(from, 5) {
        0 => &mut slot.f,
        1 => &mut slot.e,
        2 => &mut slot.r,
        3 => &mut slot.x,
        4 => &mut slot.g,
        _ => &mut slot.s,
    }
}

/// G or S of device N, or a number of a slot above N.
fn beyond<'a>(rng: &mut Rng, plan: &'a mut Plan) -> &'a mut u16 {
    let n = plan.devices();
    let slot = rng.within(n, SLOTS);
    number_of(rng, &mut plan.slots[slot - 1], if slot == n { 4 } else { 0 })
}

/// A plan with N, some numbers or all of them out of bounds.
pub fn damaged(rng: &mut Rng) -> Plan {
    let mut plan = accepted(rng);
    match rng.below(6) {
        0 => plan.n = rng.pick(&[0, 1, 9, 65_535]),
        1 => plan.n = rng.within(2, SLOTS) as u16,
        2 => *beyond(rng, &mut plan) = rng.pick(&[1, 36_000, 65_535]),
        3 | 4 => {
            for _ in 0..rng.within(1, 4) {
                let value = rng.word();
                *any_number(rng, &mut plan, SLOTS) = rng.pick(&[0, 36_001, 65_535, value]);
            }
        }
        _ => plan = random(rng),
    }
    plan
}

/// Every number at random, large or small; N mostly in bounds.
fn random(rng: &mut Rng) -> Plan {
    let most = rng.pick(&[3, 30, 36_000, 65_535]);
    let mut draw = || rng.within(0, most) as u16;
    let mut plan = Plan { n: draw(), w: draw(), b: draw(), q: draw(), ..Plan::default() };
    for slot in plan.slots.iter_mut() {
        *slot = Slot { f: draw(), e: draw(), r: draw(), x: draw(), g: draw(), s: draw() };
    }
    if rng.chance(3, 4) {
        plan.n = rng.within(2, SLOTS) as u16;
    }
    plan
}

/// A plan of any kind.
pub fn any(rng: &mut Rng) -> Plan {
    match rng.below(10) {
        0..=2 => accepted(rng),
        3..=7 => edge(rng),
        _ => damaged(rng),
    }
}

/// Mostly a small accepted plan, for calls in which the plan is not the point; now and then any.
pub fn mostly_accepted(rng: &mut Rng) -> Plan {
    match rng.below(10) {
        0..=5 => lively(rng),
        6 => large(rng),
        7 => tight(rng),
        _ => any(rng),
    }
}
