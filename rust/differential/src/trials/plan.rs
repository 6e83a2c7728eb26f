//! The verdict on a plan, and a fresh yard for it.

use super::{shown, Trial};
use crate::answer::Answer;
use crate::counts::{Counts, Group};
use crate::lent::Lent;
use model::bytes::{plan_to_bytes, yard_to_bytes, YARD};
use model::{gen, Plan};
use wilatkhun::calls;

pub struct Check {
    seed: u64,
    plan: Plan,
}

impl Check {
    pub fn of(seed: u64) -> Check {
        Check { seed, plan: gen::check_case(seed) }
    }
}

impl Trial for Check {
    fn input(&self) -> Vec<(&'static str, String)> {
        vec![("the plan", format!("{:?}", self.plan)), shown("plan", &plan_to_bytes(&self.plan))]
    }

    fn library(&self) -> Answer {
        let plan = Lent::holding(&plan_to_bytes(&self.plan), self.seed);
        let verdict = calls::check(plan.bytes());
        Answer::refusal(verdict.number, verdict.index).lending("plan", plan)
    }

    fn model(&self) -> Answer {
        let verdict = model::check(&self.plan);
        let plan = Lent::holding(&plan_to_bytes(&self.plan), self.seed);
        Answer::refusal(verdict.number, verdict.index).lending("plan", plan)
    }

    fn count(&self, answer: &Answer, counts: &mut Counts) {
        counts.hit(Group::Check, answer.number("number"));
    }
}

pub struct Fresh {
    seed: u64,
    plan: Plan,
}

impl Fresh {
    pub fn of(seed: u64) -> Fresh {
        Fresh { seed, plan: gen::check_case(seed) }
    }

    fn lend(&self) -> (Lent, Lent) {
        (Lent::holding(&plan_to_bytes(&self.plan), self.seed), Lent::pattern(YARD, self.seed ^ 1))
    }
}

impl Trial for Fresh {
    fn input(&self) -> Vec<(&'static str, String)> {
        vec![("the plan", format!("{:?}", self.plan)), shown("plan", &plan_to_bytes(&self.plan))]
    }

    fn library(&self) -> Answer {
        let (plan, mut yard) = self.lend();
        let verdict = calls::fresh(plan.bytes(), yard.bytes_mut());
        Answer::refusal(verdict.number, verdict.index).lending("plan", plan).lending("yard", yard)
    }

    fn model(&self) -> Answer {
        let (plan, mut yard) = self.lend();
        let (verdict, fresh) = model::fresh(&self.plan);
        if verdict.accepted() {
            yard.bytes_mut().copy_from_slice(&yard_to_bytes(&fresh));
        }
        Answer::refusal(verdict.number, verdict.index).lending("plan", plan).lending("yard", yard)
    }

    fn count(&self, answer: &Answer, counts: &mut Counts) {
        counts.hit(Group::Fresh, answer.number("number"));
    }
}
