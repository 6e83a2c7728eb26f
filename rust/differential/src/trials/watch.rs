//! Demand 3 over the library's own history: fresh yard, ticks and run are its, the watch is the model's.

use super::{shown, Trial};
use crate::answer::Answer;
use crate::counts::{Counts, Group};
use crate::lent::Lent;
use model::bytes::{plan_to_bytes, yard_from_bytes, yard_to_bytes, YARD};
use model::gen::{self, WatchCase};
use model::watch::Seen;
use model::{Down, Record, Yard};
use wilatkhun::calls;

pub struct Watch {
    seed: u64,
    case: WatchCase,
}

impl Watch {
    pub fn of(seed: u64) -> Watch {
        Watch { seed, case: gen::watch_case(seed) }
    }

    fn ticks(&self) -> usize {
        self.case.roll.len() / 4
    }

    /// The library's ticks under the watch; the engaged bytes are those of the yards that it saw.
    fn follow(&self, plan: &[u8], yard: &mut [u8], engaged: &mut [u8]) -> Result<Seen, String> {
        let mut watch = model::Watch::new(&self.case.plan);
        let mut before = decoded(yard)?;
        for (k, r) in self.case.roll.chunks_exact(4).enumerate() {
            let record = Record::from_bytes([r[0], r[1], r[2], r[3]]);
            let ticked = calls::tick(plan, yard, record.to_bytes());
            if ticked.verdict.number != 0 {
                return Err(format!("tick {} refused with {}", k + 1, ticked.verdict.number));
            }
            let after = decoded(yard)?;
            watch.tick(k + 1, &before, record, &after, letter(ticked.down, ticked.device)?)?;
            engaged[k] = after.engaged(self.case.plan.devices());
            before = after;
        }
        Ok(watch.seen)
    }
}

fn decoded(yard: &[u8]) -> Result<Yard, String> {
    let bytes: &[u8; YARD] = yard.try_into().map_err(|_| "not 40 bytes".to_string())?;
    yard_from_bytes(bytes).ok_or_else(|| "the library's yard is malformed".to_string())
}

fn letter(down: u8, device: u8) -> Result<Down, String> {
    match down {
        0 => Ok(Down::None),
        1 => Ok(Down::LeaseReq(device)),
        2 => Ok(Down::Grant(device)),
        3 => Ok(Down::Cancel(device)),
        4 => Ok(Down::Abort(device)),
        _ => Err(format!("no letter has number {down}")),
    }
}

impl Trial for Watch {
    fn input(&self) -> Vec<(&'static str, String)> {
        vec![
            ("the plan", format!("{:?}", self.case.plan)),
            shown("plan", &plan_to_bytes(&self.case.plan)),
            shown("roll", &self.case.roll),
        ]
    }

    fn library(&self) -> Answer {
        let plan = plan_to_bytes(&self.case.plan);
        let (mut yard, mut run_yard) = (Lent::pattern(YARD, self.seed), Lent::pattern(YARD, self.seed));
        let (mut engaged, mut run_engaged) =
            (Lent::pattern(self.ticks(), self.seed), Lent::pattern(self.ticks(), self.seed));
        let fresh = calls::fresh(&plan, yard.bytes_mut());
        calls::fresh(&plan, run_yard.bytes_mut());
        let ran = calls::run(&plan, run_yard.bytes_mut(), &self.case.roll, self.ticks(), run_engaged.bytes_mut());
        let seen = self.follow(&plan, yard.bytes_mut(), engaged.bytes_mut());
        let mut answer = Answer::default()
            .with("fresh: number", fresh.number as u64)
            .with("run: number", ran.verdict.number as u64)
            .with("run: ticks", ran.ticks as u64)
            .lending("ticks: yard", yard)
            .lending("ticks: engaged", engaged)
            .lending("run: yard", run_yard)
            .lending("run: engaged", run_engaged);
        match seen {
            Ok(seen) => answer.seen = Some(seen),
            Err(breach) => answer.breach = Some(breach),
        }
        answer
    }

    /// No breach is ever expected, whatever the model's own history does.
    fn model(&self) -> Answer {
        let (mut yard, mut engaged) = (Lent::pattern(YARD, self.seed), Lent::pattern(self.ticks(), self.seed));
        let (_, end, ticks) =
            model::run(&self.case.plan, &Yard::FRESH, &self.case.roll, self.ticks(), engaged.bytes_mut());
        yard.bytes_mut().copy_from_slice(&yard_to_bytes(&end));
        let mut answer = Answer::default()
            .with("fresh: number", 0)
            .with("run: number", 0)
            .with("run: ticks", ticks as u64)
            .lending("ticks: yard", yard.clone())
            .lending("ticks: engaged", engaged.clone())
            .lending("run: yard", yard)
            .lending("run: engaged", engaged);
        answer.seen = model::watch::follow(&self.case.plan, &self.case.roll).ok();
        answer
    }

    fn count(&self, answer: &Answer, counts: &mut Counts) {
        if let Some(seen) = &answer.seen {
            counts.more(Group::Ticks, 4, seen.ticks);
            counts.seen.add(seen);
        }
    }
}
