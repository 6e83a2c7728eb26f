//! Plans and yards of the wrong length: 27 at 0 before all else, and nothing written.

use super::{shown, Trial};
use crate::answer::Answer;
use crate::counts::{Counts, Group};
use crate::lent::Lent;
use model::bytes::{plan_to_bytes, PLAN, YARD};
use model::gen::{self, FileCase, Rng, RunCase};
use wilatkhun::calls;

/// The lengths lent, plan before yard; the last three are of calls that take a plan alone.
pub const NAMES: [&str; 18] = [
    "empty/empty",
    "empty/short",
    "empty/right",
    "empty/long",
    "short/empty",
    "short/short",
    "short/right",
    "short/long",
    "right/empty",
    "right/short",
    "right/long",
    "long/empty",
    "long/short",
    "long/right",
    "long/long",
    "empty/-",
    "short/-",
    "long/-",
];

const CALLS: [Group; 7] = [Group::Check, Group::Fresh, Group::Tick, Group::Run, Group::Read, Group::Write, Group::List];

pub struct Sizes {
    seed: u64,
    call: Group,
    plan_length: usize,
    yard_length: usize,
    case: RunCase,
    file: FileCase,
}

/// A wrong or the right length.
fn length(rng: &mut Rng, right: usize) -> usize {
    let (below, above) = (rng.within(1, right - 1), rng.within(right + 1, 3 * right));
    match rng.below(4) {
        0 => 0,
        1 => rng.pick(&[below, right - 1, 1]),
        2 => rng.pick(&[above, right + 1, 2 * right]),
        _ => right,
    }
}

fn class(length: usize, right: usize) -> &'static str {
    match length {
        0 => "empty",
        _ if length < right => "short",
        _ if length == right => "right",
        _ => "long",
    }
}

impl Sizes {
    pub fn of(seed: u64) -> Sizes {
        let rng = &mut Rng::new(seed ^ 0x512E);
        let call = rng.pick(&CALLS);
        let (mut plan_length, mut yard_length) = (PLAN, YARD);
        while plan_length == PLAN && (alone(call) || yard_length == YARD) {
            (plan_length, yard_length) = (length(rng, PLAN), length(rng, YARD));
        }
        Sizes { seed, call, plan_length, yard_length, case: gen::run_case(seed), file: gen::file_case(seed) }
    }

    fn lend(&self) -> [Lent; 4] {
        // A file's buffer may be too short as well: 27 comes before 20.
        let filled = if self.call == Group::Write { self.case.engaged } else { self.case.engaged.max(64) };
        [
            Lent::resized(&plan_to_bytes(&self.case.plan), self.plan_length, self.seed),
            Lent::resized(&self.case.yard, self.yard_length, self.seed ^ 1),
            Lent::pattern(filled, self.seed ^ 2),
            Lent::holding(if self.call == Group::Read { &self.file.file } else { &self.case.roll }, self.seed ^ 3),
        ]
    }

    /// Number, index and every other number that the call answers.
    fn call(&self, lent: &mut [Lent; 4]) -> Answer {
        let [plan, yard, out, given] = lent;
        match self.call {
            Group::Check => refusal(calls::check(plan.bytes())),
            Group::Fresh => refusal(calls::fresh(plan.bytes(), yard.bytes_mut())),
            Group::Read => refusal(calls::read(given.bytes(), plan.bytes_mut())),
            Group::Write => {
                let written = calls::write(plan.bytes(), out.bytes_mut());
                refusal(written.verdict).with("length", written.length as u64)
            }
            Group::Tick => {
                let ticked = calls::tick(plan.bytes(), yard.bytes_mut(), (self.seed as u32).to_le_bytes());
                refusal(ticked.verdict).with("down", ticked.down as u64).with("device", ticked.device as u64)
            }
            Group::Run => {
                let (yard, out) = (yard.bytes_mut(), out.bytes_mut());
                let ran = calls::run(plan.bytes(), yard, given.bytes(), self.case.budget, out);
                refusal(ran.verdict).with("ticks", ran.ticks as u64)
            }
            _ => {
                let listed = calls::list(plan.bytes(), yard.bytes_mut(), given.bytes(), 0, out.bytes_mut());
                refusal(listed.verdict).with("ticks", listed.ticks as u64).with("length", listed.length as u64)
            }
        }
    }

    fn class(&self) -> usize {
        let yard = if alone(self.call) { "-" } else { class(self.yard_length, YARD) };
        let name = format!("{}/{yard}", class(self.plan_length, PLAN));
        NAMES.iter().position(|is| *is == name).unwrap_or_default()
    }
}

/// The calls that take a plan and no yard.
fn alone(call: Group) -> bool {
    matches!(call, Group::Check | Group::Read | Group::Write)
}

fn refusal(verdict: calls::Verdict) -> Answer {
    Answer::refusal(verdict.number, verdict.index)
}

fn lending(answer: Answer, lent: [Lent; 4]) -> Answer {
    let [plan, yard, out, given] = lent;
    answer.lending("plan", plan).lending("yard", yard).lending("out", out).lending("given", given)
}

impl Trial for Sizes {
    fn input(&self) -> Vec<(&'static str, String)> {
        let [plan, yard, out, given] = self.lend();
        vec![
            ("call", format!("{:?}", self.call)),
            shown("plan", plan.bytes()),
            shown("yard", yard.bytes()),
            shown("engaged, file or text", out.bytes()),
            shown("roll or file", given.bytes()),
        ]
    }

    fn library(&self) -> Answer {
        let mut lent = self.lend();
        let answer = self.call(&mut lent);
        lending(answer, lent)
    }

    fn model(&self) -> Answer {
        let refused = Answer::refusal(27, 0);
        let answer = match self.call {
            Group::Tick => refused.with("down", 0).with("device", 0),
            Group::Write => refused.with("length", 0),
            Group::Run => refused.with("ticks", 0),
            Group::List => refused.with("ticks", 0).with("length", 0),
            _ => refused,
        };
        lending(answer, self.lend())
    }

    fn count(&self, answer: &Answer, counts: &mut Counts) {
        counts.hit(self.call, answer.number("number"));
        counts.hit(Group::Sizes, self.class());
    }
}
