//! Rolls, as bytes, for a plan of N devices.

use super::Rng;
use crate::types::{Plan, Record};

/// How often, of 256, each thing happens in a tick.
#[derive(Clone, Copy)]
struct Rates {
    request: usize,
    cancel: usize,
    approval_fails: usize,
    down_lost: usize,
    up_lost: usize,
    unwilling: usize,
}

/// All bits that byte 2 and byte 3 may have, for N devices.
fn masks(plan: &Plan) -> (u8, u8) {
    let n = plan.devices();
    let bits = |count: usize| ((1usize << count) - 1) as u8;
    (bits(n.saturating_sub(1)), bits(n))
}

/// Bits of which each is set at this rate.
fn bits(rng: &mut Rng, rate: usize) -> u8 {
    if rate == 0 {
        return 0;
    }
    (0..8).fold(0, |byte, k| byte | (rng.chance(rate, 256) as u8) << k)
}

fn record(rng: &mut Rng, plan: &Plan, rates: &Rates) -> Record {
    let (all_willing, all_lost) = masks(plan);
    let command = match rng.below(256) {
        at if at < rates.request => Record::REQUEST,
        at if at < rates.request + rates.cancel => Record::CANCEL,
        _ => 0,
    };
    let approval = !rng.chance(rates.approval_fails, 256) as u8;
    let down_lost = rng.chance(rates.down_lost, 256) as u8;
    Record {
        command,
        flags: approval | down_lost << 1,
        willing: all_willing & !bits(rng, rates.unwilling),
        lost: all_lost & bits(rng, rates.up_lost),
    }
}

fn roll_of(rng: &mut Rng, plan: &Plan, ticks: usize, rates: &Rates) -> Vec<u8> {
    (0..ticks).flat_map(|_| record(rng, plan, rates).to_bytes()).collect()
}

const CALM: Rates = Rates { request: 0, cancel: 0, approval_fails: 0, down_lost: 0, up_lost: 0, unwilling: 0 };

/// No command, approval, all willing, nothing lost.
pub fn quiet(rng: &mut Rng, plan: &Plan, ticks: usize) -> Vec<u8> {
    roll_of(rng, plan, ticks, &CALM)
}

/// Requests and nothing that disturbs them, so that blades start.
pub fn undisturbed(rng: &mut Rng, plan: &Plan, ticks: usize) -> Vec<u8> {
    let request = rng.pick(&[4, 32, 128, 256]);
    roll_of(rng, plan, ticks, &Rates { request, ..CALM })
}

/// Requests, cancels, losses, failing approval and unwilling participants, each at its own rate.
pub fn busy(rng: &mut Rng, plan: &Plan, ticks: usize) -> Vec<u8> {
    let rare = [0, 0, 1, 4, 16, 64];
    let rates = Rates {
        request: rng.pick(&[16, 64, 128, 200]),
        cancel: rng.pick(&rare[..5]),
        approval_fails: rng.pick(&rare),
        down_lost: rng.pick(&rare),
        up_lost: rng.pick(&rare),
        unwilling: rng.pick(&rare),
    };
    roll_of(rng, plan, ticks, &rates)
}

/// A valid roll of any kind.
pub fn valid(rng: &mut Rng, plan: &Plan, ticks: usize) -> Vec<u8> {
    match rng.below(16) {
        0 => quiet(rng, plan, ticks),
        1..=4 => undisturbed(rng, plan, ticks),
        _ => busy(rng, plan, ticks),
    }
}

/// A record that is bad in one of its bytes: by a bit just beyond N, or at random.
pub fn bad_record(rng: &mut Rng, plan: &Plan) -> Record {
    let n = plan.devices();
    let mut bad = record(rng, plan, &CALM);
    match rng.below(4) {
        0 => bad.command = rng.pick(&[3, 4, 128, 255]),
        1 => bad.flags |= 1 << rng.within(2, 7),
        2 => bad.willing |= 1 << rng.pick(&[n.saturating_sub(1).min(7), 7]),
        _ if n < 8 => bad.lost |= 1 << rng.pick(&[n, 7]),
        _ => bad.command = 3,
    }
    bad
}

/// One bad record at a random place of the roll.
pub fn spoil(rng: &mut Rng, plan: &Plan, roll: &mut Vec<u8>) {
    let bad = bad_record(rng, plan).to_bytes();
    let at = 4 * rng.below(roll.len() / 4);
    if roll.len() < 4 {
        roll.extend(bad);
    } else {
        roll[at..at + 4].copy_from_slice(&bad);
    }
}

/// One to three bytes left over at the roll's end.
pub fn leave_over(rng: &mut Rng, roll: &mut Vec<u8>) {
    for _ in 0..rng.within(1, 3) {
        roll.push(rng.pick(&[0, 1, 255]));
    }
}

/// A roll of any kind: valid ones, with a bad record, with bytes left over, with both, or random bytes.
pub fn any(rng: &mut Rng, plan: &Plan, ticks: usize) -> Vec<u8> {
    let mut roll = valid(rng, plan, ticks);
    match rng.below(20) {
        0 | 1 => spoil(rng, plan, &mut roll),
        2 => leave_over(rng, &mut roll),
        3 => {
            spoil(rng, plan, &mut roll);
            leave_over(rng, &mut roll);
        }
        4 => roll = (0..rng.below(40)).map(|_| rng.byte()).collect(),
        _ => {}
    }
    roll
}
