//! Promise 5: an undisturbed request in a rested yard starts the blade, on time.

use super::Watch;
use crate::types::{Base, Down, Letter, Place, Record, Yard};

impl Watch {
    /// Promise 5: device N's Running starts exactly N-1+E_N ticks after the request's tick, and in no tick between.
    pub(super) fn blade(&mut self, before: &Yard, record: Record, after: &Yard, down: Down) -> Result<(), String> {
        let Some(last) = self.n.checked_sub(1) else {
            return Ok(());
        };
        let past = match self.request {
            Some(past) => past + 1,
            None if record.command == Record::REQUEST && self.rested(before) => {
                self.seen.rested_requests += 1;
                0
            }
            None => return Ok(()),
        };
        if self.disturbs(before, record, down) {
            self.seen.disturbed += 1;
            self.request = None;
            return Ok(());
        }
        let due = last as u32 + self.plan.slots[last].e as u32;
        let running = after.devices[last].place == Place::Running;
        if running != (past == due) {
            return Err(format!("promise 5: {past} ticks after the request, the blade's start is due after {due}"));
        }
        self.seen.blades_on_time += running as u64;
        self.request = if running { None } else { Some(past) };
        Ok(())
    }

    /// "Rested, at a request, means all in Fall-Back with clocks at B and F once step 1 of its tick is done".
    fn rested(&self, before: &Yard) -> bool {
        let base = before.base == Base::FallBack && before.clock as u32 + 1 >= self.plan.b as u32;
        let resting = |k: usize| {
            let device = before.devices[k];
            device.place == Place::FallBack && device.clock as u32 + 1 >= self.plan.slots[k].f as u32
        };
        base && (0..self.n).all(resting)
    }

    /// Whether this tick takes the premise away: a written letter lost, a cancel, no approval, or the one asked
    /// unwilling.
    fn disturbs(&self, before: &Yard, record: Record, down: Down) -> bool {
        let unwilling = matches!(down, Down::LeaseReq(i) if !record.is_willing(i as usize));
        record.command == Record::CANCEL
            || !record.approval()
            || unwilling
            || (record.down_lost() && down != Down::None)
            || (record.lost != 0 && (1..=self.n).any(|i| record.is_lost(i) && self.writes(before, record, i)))
    }

    /// Whether device i has a letter to go up in this tick: one that waits, Exit when its exit is due, or Request.
    /// (Cancel disturbs by its command alone.)
    fn writes(&self, before: &Yard, record: Record, i: usize) -> bool {
        let device = before.device(i);
        let clock = device.clock as u32 + 1;
        let times = self.plan.slot(i);
        let exits = matches!(device.place, Place::Exiting1 | Place::Exiting2) && clock >= times.x as u32;
        let requests = i == self.n
            && record.command == Record::REQUEST
            && device.place == Place::FallBack
            && clock >= times.f as u32;
        device.letter != Letter::None || exits || requests
    }
}
