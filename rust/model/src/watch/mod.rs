//! Demand 3, held against a history from a fresh yard under an accepted plan and a valid roll.
//!
//! The watch sees each tick's end and keeps counters only, no history. It answers the first breach of a promise, by
//! number: 1 a stay lasts at most R + X tick ends; 2 enter spacing; 3 exit spacing; 4 the base is away at most LS
//! tick ends; 5 an undisturbed request starts the blade, on time; 6 with the base in Fall-Back no device is out.
//! It counts what it saw, so that a caller can show that it was not idle.

mod blade;
mod seen;

pub use seen::Seen;

use crate::steps::steps;
use crate::types::{Base, Device, Down, Place, Plan, Record, Yard, SLOTS};
use crate::yard::records;

/// The watch over the model's own run from a fresh yard, for an accepted plan and a valid roll.
pub fn follow(plan: &Plan, roll: &[u8]) -> Result<Seen, String> {
    let mut watch = Watch::new(plan);
    let mut now = Yard::FRESH;
    for (k, record) in records(roll).enumerate() {
        let (after, down) = steps(plan, &now, record);
        watch.tick(k + 1, &now, record, &after, down)?;
        now = after;
    }
    Ok(watch.seen)
}

/// Longer ago than any spacing.
const NEVER: u32 = u32::MAX;

#[derive(Clone, Debug)]
pub struct Watch {
    plan: Plan,
    n: usize,
    ls: u32,
    /// For each device, the tick ends in a row at which it has been engaged, now included.
    streak: [u32; SLOTS],
    /// For each device, the tick ends of its last stay that has ended.
    stay: [u32; SLOTS],
    /// For each device, the tick ends since it was last engaged; 0 while it is.
    since: [u32; SLOTS],
    /// The tick ends in a row at which the base has been away from Fall-Back.
    away: u32,
    /// Ticks since a request in a rested yard that nothing has disturbed so far.
    request: Option<u32>,
    pub seen: Seen,
}

impl Watch {
    /// A watch over a history that starts from the fresh yard, before tick 1.
    pub fn new(plan: &Plan) -> Watch {
        Watch {
            plan: *plan,
            n: plan.devices(),
            ls: plan.ls() as u32,
            streak: [0; SLOTS],
            stay: [0; SLOTS],
            since: [NEVER; SLOTS],
            away: 0,
            request: None,
            seen: Seen::default(),
        }
    }

    /// One tick: the yard before it, its record, the yard after it and the letter sent down, lost or not.
    pub fn tick(
        &mut self,
        number: usize,
        before: &Yard,
        record: Record,
        after: &Yard,
        down: Down,
    ) -> Result<(), String> {
        self.seen.ticks += 1;
        let breach = self
            .stays(after)
            .and_then(|()| self.pairs())
            .and_then(|()| self.base(after))
            .and_then(|()| self.home(after))
            .and_then(|()| self.blade(before, record, after, down));
        breach.map_err(|what| format!("{what}, at tick {number}"))
    }

    /// Moves the counters of every device on, and promise 1: "more than R+X tick ends in a row".
    fn stays(&mut self, after: &Yard) -> Result<(), String> {
        for k in 0..self.n {
            if after.devices[k].engaged() {
                self.streak[k] = self.streak[k].saturating_add(1);
                self.since[k] = 0;
                let longest = self.plan.slots[k].r as u32 + self.plan.slots[k].x as u32;
                if self.streak[k] > longest {
                    return Err(format!("promise 1: device {} engaged for more than {longest} tick ends", k + 1));
                }
                self.seen.stays_full += (self.streak[k] == longest) as u64;
            } else {
                if self.streak[k] > 0 {
                    self.seen.stays_ended += 1;
                    self.stay[k] = self.streak[k];
                    self.streak[k] = 0;
                }
                self.since[k] = self.since[k].saturating_add(1);
            }
        }
        Ok(())
    }

    fn pairs(&mut self) -> Result<(), String> {
        for k in 0..self.n.saturating_sub(1) {
            let inner_since = self.since[k + 1];
            if inner_since == 0 {
                self.enter_spacing(k)?;
            } else if inner_since != NEVER {
                self.exit_spacing(k, inner_since)?;
            }
        }
        Ok(())
    }

    /// Promise 2, with i+1 engaged: i is engaged now and at each of the G + 2 tick ends before. Counters start with
    /// tick 1, so none of these lies before it.
    fn enter_spacing(&mut self, k: usize) -> Result<(), String> {
        let needed = self.plan.slots[k].g as u32 + 3;
        if self.streak[k] < needed {
            return Err(format!("promise 2: device {} engaged, device {} not long enough", k + 2, k + 1));
        }
        if self.streak[k + 1] == 1 {
            self.seen.pairs_entered += 1;
            self.seen.pairs_entered_tight += (self.streak[k] == needed) as u64;
        }
        Ok(())
    }

    /// Promise 3: i is engaged at each of the S + 1 tick ends after one at which i+1 is.
    fn exit_spacing(&mut self, k: usize, inner_since: u32) -> Result<(), String> {
        let held = self.plan.slots[k].s as u32 + 1;
        if self.since[k] == 0 {
            return Ok(());
        }
        if inner_since <= held {
            return Err(format!("promise 3: device {} left too soon after device {}", k + 1, k + 2));
        }
        // Its stay has just ended, and the inner one's last engaged tick end was within it: the spacing was put to
        // the test.
        if self.since[k] == 1 && inner_since <= self.stay[k] {
            self.seen.pairs_left += 1;
            self.seen.pairs_left_tight += (inner_since == held + 1) as u64;
        }
        Ok(())
    }

    /// Promise 4: "the base is away from Fall-Back for at most LS tick ends in a row".
    fn base(&mut self, after: &Yard) -> Result<(), String> {
        if after.base != Base::FallBack {
            self.away = self.away.saturating_add(1);
            if self.away > self.ls {
                return Err(format!("promise 4: base away for more than {} tick ends", self.ls));
            }
        } else if self.away > 0 {
            self.seen.base_returns += 1;
            self.seen.base_full += (self.away == self.ls) as u64;
            self.away = 0;
        }
        Ok(())
    }

    /// Promise 6: "while the base is in Fall-Back no device is in Entering, Running, Exiting 1 or Exiting 2".
    fn home(&mut self, after: &Yard) -> Result<(), String> {
        if after.base != Base::FallBack {
            return Ok(());
        }
        self.seen.base_home += (self.seen.base_returns > 0) as u64;
        let out = |d: &Device| !matches!(d.place, Place::FallBack | Place::Requesting);
        match after.devices[..self.n].iter().position(out) {
            Some(k) => Err(format!("promise 6: base in Fall-Back, device {} is not home", k + 1)),
            None => Ok(()),
        }
    }
}
