//! A plan written as a plan file.

use super::{shown, Trial};
use crate::answer::Answer;
use crate::counts::{Counts, Group};
use crate::lent::Lent;
use model::bytes::plan_to_bytes;
use model::gen::{self, WriteCase};
use wilatkhun::calls;

/// The room lent, beside what an accepted plan's file takes. A refused plan's file that would not fit either is the last.
pub const ROOMS: [&str; 7] = ["none", "less", "17 + 12 N", "18 + 12 N", "19 + 12 N", "more", "1 to 9, less"];

pub struct Write {
    seed: u64,
    case: WriteCase,
}

fn answer(number: u8, index: usize, length: usize, plan: Lent, file: Lent) -> Answer {
    Answer::refusal(number, index).with("length", length as u64).lending("plan", plan).lending("file", file)
}

impl Write {
    pub fn of(seed: u64) -> Write {
        Write { seed, case: gen::write_case(seed) }
    }

    fn lend(&self) -> (Lent, Lent) {
        let plan = Lent::holding(&plan_to_bytes(&self.case.plan), self.seed);
        (plan, Lent::pattern(self.case.room, self.seed ^ 1))
    }

    fn room(&self, number: usize) -> Option<usize> {
        let whole = 18 + 12 * self.case.plan.devices();
        match (number, self.case.room) {
            (1..=9, room) if room < whole => Some(6),
            (1..=9, _) => None,
            (_, 0) => Some(0),
            (_, room) if room + 1 < whole => Some(1),
            (_, room) => Some((room + 3 - whole).min(5)),
        }
    }
}

impl Trial for Write {
    fn input(&self) -> Vec<(&'static str, String)> {
        let plan = plan_to_bytes(&self.case.plan);
        let said = ("the plan", format!("{:?}", self.case.plan));
        vec![said, shown("plan", &plan), shown("file before", self.lend().1.bytes())]
    }

    fn library(&self) -> Answer {
        let (plan, mut file) = self.lend();
        let written = calls::write(plan.bytes(), file.bytes_mut());
        answer(written.verdict.number, written.verdict.index, written.length, plan, file)
    }

    fn model(&self) -> Answer {
        let (plan, mut file) = self.lend();
        let (verdict, length) = model::write(&self.case.plan, file.bytes_mut());
        answer(verdict.number, verdict.index, length, plan, file)
    }

    fn count(&self, answer: &Answer, counts: &mut Counts) {
        let number = answer.number("number");
        counts.hit(Group::Write, number);
        self.room(number).into_iter().for_each(|class| counts.hit(Group::Room, class));
        match number {
            0 => counts.hit(Group::Devices, self.case.plan.devices() - 2),
            20 => counts.hit(Group::Short, self.case.plan.devices() - 2),
            _ => {}
        }
    }
}
