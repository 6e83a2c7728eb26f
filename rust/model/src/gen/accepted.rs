//! Plans that are accepted, by construction.

use super::Rng;
use crate::types::{Plan, Slot, LONGEST, SLOTS};

/// How much is added over the least that the conditions ask, for each kind of time of one plan.
struct Slack {
    wait: usize,
    rest: usize,
    enter: usize,
    run: usize,
    exit: usize,
    spacing: usize,
}

impl Slack {
    fn draw(rng: &mut Rng, scales: &[usize]) -> Slack {
        let mut one = || rng.pick(scales);
        Slack { wait: one(), rest: one(), enter: one(), run: one(), exit: one(), spacing: one() }
    }
}

/// The times of a plan under construction, wide enough for any sum.
#[derive(Clone, Copy, Default)]
struct Wide {
    f: usize,
    e: usize,
    r: usize,
    x: usize,
    g: usize,
    s: usize,
}

/// The least time, with some slack: often none, so that conditions are met just so.
fn over(rng: &mut Rng, least: usize, slack: usize) -> usize {
    if rng.chance(1, 4) {
        return least;
    }
    least + rng.below(slack + 1)
}

/// A plan whose whole round takes few ticks, so that a short roll sees all of it.
pub fn lively(rng: &mut Rng) -> Plan {
    accepted_of(rng, &[0, 0, 1, 2, 4])
}

/// An accepted plan with times up to 36,000.
pub fn large(rng: &mut Rng) -> Plan {
    accepted_of(rng, &[0, 0, 3, 50, 500, 4_000, 36_000])
}

/// An accepted plan in which every time is the least that the conditions allow for its W; W is small or large.
pub fn tight(rng: &mut Rng) -> Plan {
    let waits = [0, 0, 3, 40, 4_000];
    loop {
        let slack = Slack { wait: rng.pick(&waits), rest: 0, enter: 0, run: 0, exit: 0, spacing: 0 };
        if let Some(plan) = construct(rng, &slack) {
            return plan;
        }
    }
}

pub fn accepted(rng: &mut Rng) -> Plan {
    match rng.below(10) {
        0..=5 => lively(rng),
        6..=7 => large(rng),
        _ => tight(rng),
    }
}

fn accepted_of(rng: &mut Rng, scales: &[usize]) -> Plan {
    loop {
        let slack = Slack::draw(rng, scales);
        if let Some(plan) = construct(rng, &slack) {
            return plan;
        }
    }
}

/// Entering times and spacings outward in, then runs and exits inward out, each at least what c5, c6 and c7 ask; c2
/// by a longer run of device 1. None when a time would be above 36,000.
fn construct(rng: &mut Rng, slack: &Slack) -> Option<Plan> {
    let n = rng.within(2, SLOTS);
    let w = over(rng, 1, slack.wait);
    let mut d = [Wide::default(); SLOTS];
    for k in 0..n {
        d[k].f = over(rng, 1, slack.rest);
        let least = if k == 0 { 1 } else { d[k - 1].e + d[k - 1].g + 1 };
        d[k].e = over(rng, least, slack.enter);
        if k + 1 < n {
            d[k].g = over(rng, 1, slack.spacing);
        }
    }
    runs_and_exits(rng, slack, w, &mut d[..n]);
    let short_by = (n * w + 1).saturating_sub(d[0].e + d[0].r + d[0].x);
    d[0].r += short_by;
    let b = over(rng, 1, slack.rest);
    finish(rng, n, w, b, &d)
}

fn runs_and_exits(rng: &mut Rng, slack: &Slack, w: usize, d: &mut [Wide]) {
    for k in (0..d.len()).rev() {
        let mut least_run = 1;
        let mut least_exit = 1;
        if let Some(inner) = d.get(k + 1).copied() {
            least_run = w + inner.e + inner.r + inner.x + 1 - d[k].e;
            d[k].s = over(rng, 1, slack.spacing);
            least_exit = d[k].s + 1;
        }
        d[k].r = over(rng, least_run, slack.run);
        d[k].x = over(rng, least_exit, slack.exit);
    }
}

/// Q strictly between (N-1) × W and LS, at either end or inside.
fn finish(rng: &mut Rng, n: usize, w: usize, b: usize, d: &[Wide; SLOTS]) -> Option<Plan> {
    let low = (n - 1) * w + 1;
    let high = (d[0].e + d[0].r + d[0].x - 1).min(LONGEST as usize);
    if low > high {
        return None;
    }
    let inside = rng.within(low, high);
    let q = rng.pick(&[low, high, inside]);
    let mut plan = Plan { n: n as u16, w: time(w)?, b: time(b)?, q: time(q)?, ..Plan::default() };
    for (slot, wide) in plan.slots.iter_mut().zip(d) {
        let Wide { f, e, r, x, g, s } = *wide;
        *slot = Slot { f: time(f)?, e: time(e)?, r: time(r)?, x: time(x)?, g: time(g)?, s: time(s)? };
    }
    Some(plan)
}

fn time(t: usize) -> Option<u16> {
    u16::try_from(t).ok().filter(|&t| t <= LONGEST)
}
