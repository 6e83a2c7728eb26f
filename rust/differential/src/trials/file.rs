//! The plan file's reader, and the finder.

use super::{shown, Trial};
use crate::answer::Answer;
use crate::counts::{Counts, Group};
use crate::lent::Lent;
use model::bytes::{plan_to_bytes, PLAN};
use model::gen::{self, FileCase};
use wilatkhun::calls;

pub struct Read {
    seed: u64,
    case: FileCase,
}

impl Read {
    pub fn of(seed: u64) -> Read {
        Read { seed, case: gen::file_case(seed) }
    }

    fn lend(&self) -> (Lent, Lent) {
        (Lent::holding(&self.case.file, self.seed), Lent::pattern(PLAN, self.seed ^ 1))
    }
}

impl Trial for Read {
    fn input(&self) -> Vec<(&'static str, String)> {
        vec![shown("file", &self.case.file), shown("plan before", self.lend().1.bytes())]
    }

    fn library(&self) -> Answer {
        let (file, mut plan) = self.lend();
        let verdict = calls::read(file.bytes(), plan.bytes_mut());
        Answer::refusal(verdict.number, verdict.index).lending("file", file).lending("plan", plan)
    }

    /// A refused call writes nothing, so that the model's all-zero plan of a refused file does not show here.
    fn model(&self) -> Answer {
        let (file, mut plan) = self.lend();
        let (verdict, taken) = model::read(&self.case.file);
        if verdict.accepted() {
            plan.bytes_mut().copy_from_slice(&plan_to_bytes(&taken));
        }
        Answer::refusal(verdict.number, verdict.index).lending("file", file).lending("plan", plan)
    }

    fn count(&self, answer: &Answer, counts: &mut Counts) {
        counts.hit(Group::Read, answer.number("number"));
        if answer.number("number") == 0 {
            counts.hit(Group::Devices, answer.lent("plan")[0] as usize - 2);
        }
    }
}

pub struct Find {
    seed: u64,
    case: FileCase,
}

impl Find {
    pub fn of(seed: u64) -> Find {
        Find { seed, case: gen::file_case(seed) }
    }

    fn answer(&self, part: u8, start: usize, length: usize, file: Lent, roll: Lent) -> Answer {
        Answer::default()
            .with("part", part as u64)
            .with("start", start as u64)
            .with("length", length as u64)
            .lending("file", file)
            .lending("roll", roll)
    }

    fn lend(&self) -> (Lent, Lent) {
        (Lent::holding(&self.case.file, self.seed), Lent::holding(&self.case.roll, self.seed ^ 1))
    }
}

impl Trial for Find {
    fn input(&self) -> Vec<(&'static str, String)> {
        vec![shown("file", &self.case.file), shown("roll", &self.case.roll)]
    }

    fn library(&self) -> Answer {
        let (file, roll) = self.lend();
        let piece = calls::find(file.bytes(), roll.bytes());
        self.answer(piece.part, piece.start, piece.length, file, roll)
    }

    fn model(&self) -> Answer {
        let (file, roll) = self.lend();
        let piece = model::find(&self.case.file, &self.case.roll);
        self.answer(piece.in_roll as u8, piece.start, piece.length, file, roll)
    }

    /// The least body has 32 bytes, and a record's piece four.
    fn count(&self, answer: &Answer, counts: &mut Counts) {
        let kind = match (answer.number("part"), answer.number("length")) {
            (0, 10) => 0,
            (0, 0..=9) => 1,
            (0, _) => 2,
            (_, 1..=3) => 3,
            (_, 4) => 4,
            _ => 5,
        };
        counts.hit(Group::Piece, kind);
    }
}
