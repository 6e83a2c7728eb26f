//! One tick of a yard.

use super::{count_end, count_state, down_numbers, shown, yard_or_refusal, Trial};
use crate::answer::Answer;
use crate::counts::{Counts, Group};
use crate::lent::Lent;
use model::bytes::{plan_to_bytes, yard_to_bytes};
use model::gen::{self, TickCase};
use model::{Down, Verdict};
use wilatkhun::calls;

pub struct Tick {
    seed: u64,
    case: TickCase,
}

impl Tick {
    pub fn of(seed: u64) -> Tick {
        Tick { seed, case: gen::tick_case(seed) }
    }

    fn lend(&self) -> (Lent, Lent) {
        let plan = Lent::holding(&plan_to_bytes(&self.case.plan), self.seed);
        (plan, Lent::holding(&self.case.yard, self.seed ^ 1))
    }
}

fn answer(verdict: Verdict, letter: (u8, u8), plan: Lent, yard: Lent) -> Answer {
    Answer::refusal(verdict.number, verdict.index)
        .with("down", letter.0 as u64)
        .with("device", letter.1 as u64)
        .lending("plan", plan)
        .lending("yard", yard)
}

impl Trial for Tick {
    fn input(&self) -> Vec<(&'static str, String)> {
        let plan = plan_to_bytes(&self.case.plan);
        let record = self.case.record.to_bytes();
        let said = ("the plan", format!("{:?}", self.case.plan));
        vec![said, shown("plan", &plan), shown("yard", &self.case.yard), shown("record", &record)]
    }

    fn library(&self) -> Answer {
        let (plan, mut yard) = self.lend();
        let ticked = calls::tick(plan.bytes(), yard.bytes_mut(), self.case.record.to_bytes());
        let verdict = Verdict::refused(ticked.verdict.number, ticked.verdict.index);
        answer(verdict, (ticked.down, ticked.device), plan, yard)
    }

    fn model(&self) -> Answer {
        let (plan, mut yard) = self.lend();
        let (verdict, down) = match yard_or_refusal(&self.case.plan, &self.case.yard) {
            Err(verdict) => (verdict, Down::None),
            Ok(before) => {
                let (verdict, after, down) = model::tick(&self.case.plan, &before, self.case.record);
                yard.bytes_mut().copy_from_slice(&yard_to_bytes(&after));
                (verdict, down)
            }
        };
        answer(verdict, down_numbers(down), plan, yard)
    }

    fn count(&self, answer: &Answer, counts: &mut Counts) {
        let number = answer.number("number");
        counts.hit(Group::Tick, number);
        count_state(&self.case.yard, number, counts);
        if number == 0 {
            counts.hit(Group::Down, answer.number("down"));
            counts.hit(Group::Ticks, 0);
            count_end(&self.case.plan, answer.lent("yard"), counts);
        }
    }
}
