//! Plan P and the laser's of document 01, and the records of P's rolls.
#![allow(dead_code)]

use model::{Down, Plan, Record, Slot, Verdict, Yard};

pub const REQUEST: [u8; 4] = [1, 1, 1, 0];
pub const CALM: [u8; 4] = [0, 1, 1, 0];

pub fn plan_p() -> Plan {
    let mut plan = Plan { n: 2, w: 1, b: 1, q: 3, ..Plan::default() };
    plan.slots[0] = Slot { f: 1, e: 1, r: 7, x: 2, g: 1, s: 1 };
    plan.slots[1] = Slot { f: 1, e: 3, r: 2, x: 1, g: 0, s: 0 };
    plan
}

/// The laser settings of document 000, in tenths.
pub fn laser() -> Plan {
    let mut plan = Plan { n: 2, w: 30, b: 130, q: 50, ..Plan::default() };
    plan.slots[0] = Slot { f: 1, e: 30, r: 350, x: 60, g: 30, s: 15 };
    plan.slots[1] = Slot { f: 1, e: 100, r: 200, x: 15, g: 0, s: 0 };
    plan
}

/// Three devices, accepted, with some room at every condition.
pub fn plan_three() -> Plan {
    let mut plan = Plan { n: 3, w: 2, b: 2, q: 9, ..Plan::default() };
    plan.slots[0] = Slot { f: 2, e: 2, r: 40, x: 6, g: 1, s: 2 };
    plan.slots[1] = Slot { f: 1, e: 5, r: 20, x: 4, g: 2, s: 1 };
    plan.slots[2] = Slot { f: 3, e: 9, r: 5, x: 2, g: 0, s: 0 };
    plan
}

pub fn but(plan: Plan, change: impl Fn(&mut Plan)) -> Plan {
    let mut changed = plan;
    change(&mut changed);
    changed
}

pub fn verdict(number: u8, index: usize) -> Verdict {
    Verdict { number, index }
}

/// One request, then calm records.
pub fn roll_of(calm: usize) -> Vec<u8> {
    let mut roll = REQUEST.to_vec();
    for _ in 0..calm {
        roll.extend(CALM);
    }
    roll
}

/// The yard and down letter after each tick from the fresh yard.
pub fn history(plan: &Plan, roll: &[u8]) -> Vec<(Record, Yard, Down)> {
    let mut now = Yard::FRESH;
    let mut all = Vec::new();
    for record in model::yard::records(roll) {
        let (verdict, after, down) = model::tick(plan, &now, record);
        assert_eq!(verdict, Verdict::ACCEPTED);
        all.push((record, after, down));
        now = after;
    }
    all
}

/// The lines that the listing has for this roll, without the header.
pub fn lines(plan: &Plan, roll: &[u8]) -> Vec<String> {
    let mut text = vec![0; 64 * (roll.len() / 4 + 1)];
    let (verdict, _, ticks, length) = model::listing::list(plan, &Yard::FRESH, roll, 0, &mut text);
    assert_eq!((verdict, ticks), (Verdict::ACCEPTED, roll.len() / 4));
    String::from_utf8(text[..length].to_vec()).unwrap().lines().map(str::to_string).collect()
}
