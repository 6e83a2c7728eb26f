//! The library's writer and reader in turn: a plan written and read back, and a file without notes read and written.

use super::{shown, Trial};
use crate::answer::Answer;
use crate::counts::{Counts, Group};
use crate::lent::Lent;
use model::bytes::{plan_to_bytes, PLAN};
use model::gen::files::file_of;
use model::gen::{plans, Rng};
use model::Plan;
use wilatkhun::calls;

/// An accepted plan and a file of another, without notes; `room` is enough for either.
pub struct BothWays {
    seed: u64,
    plan: Plan,
    file: Vec<u8>,
    room: usize,
}

/// The file of an accepted plan without notes; now and then with a byte changed, where it is still one.
fn bare_file(rng: &mut Rng) -> Vec<u8> {
    let file = file_of(&plans::accepted(rng), b"", b"");
    let mut changed = file.clone();
    changed[rng.below(file.len())] = rng.byte();
    if rng.chance(1, 2) && model::read(&changed).0.accepted() {
        return changed;
    }
    file
}

impl BothWays {
    pub fn of(seed: u64) -> BothWays {
        let rng = &mut Rng::new(seed ^ 0xB074);
        let (plan, file) = (plans::accepted(rng), bare_file(rng));
        let least = file.len().max(18 + 12 * plan.devices());
        let more = rng.within(1, 60);
        BothWays { seed, plan, file, room: least + rng.pick(&[0, 0, 1, more]) }
    }

    fn lend_plan(&self) -> Lent {
        Lent::pattern(PLAN, self.seed)
    }

    fn lend_file(&self) -> Lent {
        Lent::pattern(self.room, self.seed ^ 1)
    }

    /// What is read is the front of the very buffer that was written, as long as the writer says.
    fn write_then_read(&self, answer: Answer) -> Answer {
        let (mut file, mut plan) = (self.lend_file(), self.lend_plan());
        let written = calls::write(&plan_to_bytes(&self.plan), file.bytes_mut());
        let front = file.bytes().get(..written.length).unwrap_or_default();
        let read = calls::read(front, plan.bytes_mut());
        answer
            .with("written: number", written.verdict.number as u64)
            .with("written: length", written.length as u64)
            .with("read back: number", read.number as u64)
            .lending("written: file", file)
            .lending("read back: plan", plan)
    }

    fn read_then_write(&self, answer: Answer) -> Answer {
        let (mut file, mut plan) = (self.lend_file(), self.lend_plan());
        let read = calls::read(&self.file, plan.bytes_mut());
        let written = calls::write(plan.bytes(), file.bytes_mut());
        answer
            .with("read: number", read.number as u64)
            .with("written back: number", written.verdict.number as u64)
            .with("written back: length", written.length as u64)
            .lending("read: plan", plan)
            .lending("written back: file", file)
    }
}

impl Trial for BothWays {
    fn input(&self) -> Vec<(&'static str, String)> {
        vec![
            ("the plan", format!("{:?}", self.plan)),
            shown("plan", &plan_to_bytes(&self.plan)),
            shown("file", &self.file),
            ("room", self.room.to_string()),
        ]
    }

    fn library(&self) -> Answer {
        self.read_then_write(self.write_then_read(Answer::default()))
    }

    /// What comes back is what went in: the model neither reads what it has written nor writes what it has read.
    fn model(&self) -> Answer {
        let (mut written, mut back) = (self.lend_file(), self.lend_plan());
        let (_, length) = model::write(&self.plan, written.bytes_mut());
        back.bytes_mut().copy_from_slice(&plan_to_bytes(&self.plan));
        let (mut read, mut written_back) = (self.lend_plan(), self.lend_file());
        read.bytes_mut().copy_from_slice(&plan_to_bytes(&model::read(&self.file).1));
        written_back.bytes_mut()[..self.file.len()].copy_from_slice(&self.file);
        Answer::default()
            .with("written: number", 0)
            .with("written: length", length as u64)
            .with("read back: number", 0)
            .lending("written: file", written)
            .lending("read back: plan", back)
            .with("read: number", 0)
            .with("written back: number", 0)
            .with("written back: length", self.file.len() as u64)
            .lending("read: plan", read)
            .lending("written back: file", written_back)
    }

    fn count(&self, _: &Answer, counts: &mut Counts) {
        counts.hit(Group::Devices, self.plan.devices() - 2);
    }
}
