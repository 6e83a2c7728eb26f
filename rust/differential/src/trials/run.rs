//! A run over a roll.

use super::{count_end, count_roll, count_state, shown, yard_or_refusal, Trial};
use crate::answer::Answer;
use crate::counts::{Counts, Group};
use crate::lent::Lent;
use model::bytes::{plan_to_bytes, yard_to_bytes};
use model::gen::{self, RunCase};
use wilatkhun::calls;

pub struct Run {
    seed: u64,
    case: RunCase,
}

/// What a run is lent.
struct Loan {
    plan: Lent,
    yard: Lent,
    roll: Lent,
    engaged: Lent,
}

impl Loan {
    fn answer(self, number: u8, index: usize, ticks: usize) -> Answer {
        Answer::refusal(number, index)
            .with("ticks", ticks as u64)
            .lending("plan", self.plan)
            .lending("yard", self.yard)
            .lending("roll", self.roll)
            .lending("engaged", self.engaged)
    }
}

impl Run {
    pub fn of(seed: u64) -> Run {
        Run { seed, case: gen::run_case(seed) }
    }

    fn lend(&self) -> Loan {
        Loan {
            plan: Lent::holding(&plan_to_bytes(&self.case.plan), self.seed),
            yard: Lent::holding(&self.case.yard, self.seed ^ 1),
            roll: Lent::holding(&self.case.roll, self.seed ^ 2),
            engaged: Lent::pattern(self.case.engaged, self.seed ^ 3),
        }
    }
}

impl Trial for Run {
    fn input(&self) -> Vec<(&'static str, String)> {
        let case = &self.case;
        vec![
            ("the plan", format!("{:?}", case.plan)),
            shown("plan", &plan_to_bytes(&case.plan)),
            shown("yard", &case.yard),
            shown("roll", &case.roll),
            ("budget", case.budget.to_string()),
            shown("engaged", self.lend().engaged.bytes()),
        ]
    }

    fn library(&self) -> Answer {
        let mut loan = self.lend();
        let (yard, engaged) = (loan.yard.bytes_mut(), loan.engaged.bytes_mut());
        let ran = calls::run(loan.plan.bytes(), yard, loan.roll.bytes(), self.case.budget, engaged);
        loan.answer(ran.verdict.number, ran.verdict.index, ran.ticks)
    }

    fn model(&self) -> Answer {
        let mut loan = self.lend();
        let (verdict, ticks) = match yard_or_refusal(&self.case.plan, &self.case.yard) {
            Err(verdict) => (verdict, 0),
            Ok(before) => {
                let engaged = loan.engaged.bytes_mut();
                let case = &self.case;
                let (verdict, after, ticks) = model::run(&case.plan, &before, &case.roll, case.budget, engaged);
                loan.yard.bytes_mut().copy_from_slice(&yard_to_bytes(&after));
                (verdict, ticks)
            }
        };
        loan.answer(verdict.number, verdict.index, ticks)
    }

    fn count(&self, answer: &Answer, counts: &mut Counts) {
        let number = answer.number("number");
        counts.hit(Group::Run, number);
        count_state(&self.case.yard, number, counts);
        count_roll(&self.case.roll, number, counts);
        if number == 0 {
            counts.more(Group::Ticks, 1, answer.number("ticks") as u64);
            count_end(&self.case.plan, answer.lent("yard"), counts);
        }
    }
}
