//! The plan check: the table of document 01, a function a line. "Numbers are tried in this order, each with its lowest
//! index." Every sum is a usize, so none can overflow.

use crate::types::{Plan, Verdict, LONGEST, SLOTS};

/// A line of the table: the lowest index at which the plan is refused, if it is.
type Line = fn(&Plan) -> Option<usize>;

const TABLE: [(u8, Line); 9] = [
    (1, number_of_devices),
    (2, c1_times),
    (3, zero_beyond),
    (4, c2_lease_covers_waits),
    (5, c3_request_limit),
    (6, c4_stay_fits_lease),
    (7, c5_enter_spacing),
    (8, c6_outer_outlasts_inner),
    (9, c7_exit_spacing),
];

pub fn check(plan: &Plan) -> Verdict {
    for (number, line) in TABLE {
        if let Some(index) = line(plan) {
            return Verdict::refused(number, index);
        }
    }
    Verdict::ACCEPTED
}

/// The lowest device of 1..=last that does not keep `kept`.
fn lowest(last: usize, kept: impl Fn(usize) -> bool) -> Option<usize> {
    (1..=last).find(|&i| !kept(i))
}

fn only(kept: bool) -> Option<usize> {
    if kept {
        None
    } else {
        Some(0)
    }
}

fn number_of_devices(plan: &Plan) -> Option<usize> {
    only((2..=8).contains(&plan.n))
}

fn is_time(t: u16) -> bool {
    (1..=LONGEST).contains(&t)
}

/// "c1: a time (G, S of device N excepted) is 0 or above 36,000"; 0 for W, B, Q, else the device.
fn c1_times(plan: &Plan) -> Option<usize> {
    if ![plan.w, plan.b, plan.q].into_iter().all(is_time) {
        return Some(0);
    }
    let n = plan.devices();
    lowest(n, |i| {
        let d = plan.slot(i);
        [d.f, d.e, d.r, d.x].into_iter().all(is_time) && (i == n || (is_time(d.g) && is_time(d.s)))
    })
}

/// "G or S of device N, or a slot above N, not zero"
fn zero_beyond(plan: &Plan) -> Option<usize> {
    let n = plan.devices();
    lowest(SLOTS, |i| {
        let d = plan.slot(i);
        let last_is_zero = d.g == 0 && d.s == 0;
        let own_are_zero = d.f == 0 && d.e == 0 && d.r == 0 && d.x == 0;
        i < n || (i == n && last_is_zero) || (i > n && last_is_zero && own_are_zero)
    })
}

fn c2_lease_covers_waits(plan: &Plan) -> Option<usize> {
    only(plan.ls() > plan.devices() * plan.w as usize)
}

fn c3_request_limit(plan: &Plan) -> Option<usize> {
    let q = plan.q as usize;
    only(plan.devices().saturating_sub(1) * (plan.w as usize) < q && q < plan.ls())
}

/// Not strict: at i = 1 the two sides are equal for every plan.
fn c4_stay_fits_lease(plan: &Plan) -> Option<usize> {
    lowest(plan.devices(), |i| (i - 1) * plan.w as usize + plan.slot(i).span() <= plan.ls())
}

/// The pairs i, i+1 are those of i = 1..N-1.
fn lowest_pair(plan: &Plan, kept: impl Fn(usize) -> bool) -> Option<usize> {
    lowest(plan.devices().saturating_sub(1), kept)
}

fn c5_enter_spacing(plan: &Plan) -> Option<usize> {
    lowest_pair(plan, |i| plan.slot(i).e as usize + (plan.slot(i).g as usize) < plan.slot(i + 1).e as usize)
}

/// "the last term is the exit time", not the run term twice.
fn c6_outer_outlasts_inner(plan: &Plan) -> Option<usize> {
    lowest_pair(plan, |i| plan.slot(i).e as usize + plan.slot(i).r as usize > plan.w as usize + plan.slot(i + 1).span())
}

fn c7_exit_spacing(plan: &Plan) -> Option<usize> {
    lowest_pair(plan, |i| plan.slot(i).x > plan.slot(i).s)
}
