//! A listing's first line and its lines.

use super::{count_end, count_roll, count_state, shown, yard_or_refusal, Trial};
use crate::answer::Answer;
use crate::counts::{Counts, Group};
use crate::lent::Lent;
use model::bytes::{plan_to_bytes, yard_to_bytes};
use model::gen::{self, ListCase, Rng};
use wilatkhun::calls;

pub struct Header {
    seed: u64,
    n: u16,
    room: usize,
    at: usize,
}

impl Header {
    /// Any n, with room that is plenty, just enough or just short; sometimes `at` is beyond the end.
    pub fn of(seed: u64) -> Header {
        let rng = &mut Rng::new(seed ^ 0x4EAD);
        let (small, any) = (rng.within(0, 9) as u16, rng.word());
        let n = rng.pick(&[small, small, small, small, any]);
        let room = rng.within(0, 200);
        let inside = rng.below(room + 1);
        let just = room.saturating_sub(63 + rng.below(3));
        let at = rng.pick(&[0, 0, inside, just, room, room + 1, usize::MAX, usize::MAX - 63]);
        Header { seed, n, room, at }
    }
}

impl Trial for Header {
    fn input(&self) -> Vec<(&'static str, String)> {
        vec![("n", self.n.to_string()), ("room", self.room.to_string()), ("at", self.at.to_string())]
    }

    fn library(&self) -> Answer {
        let mut out = Lent::pattern(self.room, self.seed);
        let end = calls::header(self.n, out.bytes_mut(), self.at);
        Answer::default().with("end", end as u64).lending("out", out)
    }

    fn model(&self) -> Answer {
        let mut out = Lent::pattern(self.room, self.seed);
        let end = model::listing::header_at(self.n, out.bytes_mut(), self.at);
        Answer::default().with("end", end as u64).lending("out", out)
    }

    fn count(&self, answer: &Answer, counts: &mut Counts) {
        let kind = match answer.number("end") {
            end if end != self.at => 0,
            _ if self.n > 8 => 1,
            _ => 2,
        };
        counts.hit(Group::Header, kind);
    }
}

pub struct List {
    seed: u64,
    case: ListCase,
}

/// What a listing is lent.
struct Loan {
    plan: Lent,
    yard: Lent,
    roll: Lent,
    out: Lent,
}

impl Loan {
    fn answer(self, number: u8, index: usize, ticks: usize, length: usize) -> Answer {
        Answer::refusal(number, index)
            .with("ticks", ticks as u64)
            .with("length", length as u64)
            .lending("plan", self.plan)
            .lending("yard", self.yard)
            .lending("roll", self.roll)
            .lending("out", self.out)
    }
}

impl List {
    pub fn of(seed: u64) -> List {
        List { seed, case: gen::list_case(seed) }
    }

    fn lend(&self) -> Loan {
        Loan {
            plan: Lent::holding(&plan_to_bytes(&self.case.plan), self.seed),
            yard: Lent::holding(&self.case.yard, self.seed ^ 1),
            roll: Lent::holding(&self.case.roll, self.seed ^ 2),
            out: Lent::pattern(self.case.room, self.seed ^ 3),
        }
    }
}

impl Trial for List {
    fn input(&self) -> Vec<(&'static str, String)> {
        let case = &self.case;
        vec![
            ("the plan", format!("{:?}", case.plan)),
            shown("plan", &plan_to_bytes(&case.plan)),
            shown("yard", &case.yard),
            shown("roll", &case.roll),
            ("first", case.first.to_string()),
            ("room", case.room.to_string()),
        ]
    }

    fn library(&self) -> Answer {
        let mut loan = self.lend();
        let (yard, out) = (loan.yard.bytes_mut(), loan.out.bytes_mut());
        let listed = calls::list(loan.plan.bytes(), yard, loan.roll.bytes(), self.case.first, out);
        loan.answer(listed.verdict.number, listed.verdict.index, listed.ticks, listed.length)
    }

    fn model(&self) -> Answer {
        let mut loan = self.lend();
        let (verdict, ticks, length) = match yard_or_refusal(&self.case.plan, &self.case.yard) {
            Err(verdict) => (verdict, 0, 0),
            Ok(before) => {
                let (case, out) = (&self.case, loan.out.bytes_mut());
                let (verdict, after, ticks, length) =
                    model::listing::list(&case.plan, &before, &case.roll, case.first, out);
                loan.yard.bytes_mut().copy_from_slice(&yard_to_bytes(&after));
                (verdict, ticks, length)
            }
        };
        loan.answer(verdict.number, verdict.index, ticks, length)
    }

    fn count(&self, answer: &Answer, counts: &mut Counts) {
        let number = answer.number("number");
        counts.hit(Group::List, number);
        count_state(&self.case.yard, number, counts);
        count_roll(&self.case.roll, number, counts);
        if number == 0 {
            counts.more(Group::Ticks, 2, answer.number("ticks") as u64);
            count_end(&self.case.plan, answer.lent("yard"), counts);
        }
    }
}
