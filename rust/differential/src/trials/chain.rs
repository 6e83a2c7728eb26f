//! One roll over the same yard bytes in four ways: at once, tick by tick, as runs in pieces, as a listing in pieces.

use super::{down_numbers, shown, Trial};
use crate::answer::Answer;
use crate::counts::{Counts, Group};
use crate::lent::Lent;
use model::bytes::{plan_to_bytes, yard_to_bytes};
use model::gen::{plans, rolls, states, Rng};
use model::{listing, Plan, Record, Yard};
use wilatkhun::calls;

pub struct Chain {
    seed: u64,
    plan: Plan,
    yard: Yard,
    roll: Vec<u8>,
}

impl Chain {
    pub fn of(seed: u64) -> Chain {
        let rng = &mut Rng::new(seed ^ 0xC4A1);
        let plan = if rng.chance(1, 4) { plans::tight(rng) } else { plans::lively(rng) };
        let yard = match rng.below(3) {
            0 => Yard::FRESH,
            1 => states::reached(rng, &plan),
            _ => states::well_formed(rng, &plan),
        };
        let ticks = rng.within(0, 250);
        let roll = rolls::valid(rng, &plan, ticks);
        Chain { seed, plan, yard, roll }
    }

    fn ticks(&self) -> usize {
        self.roll.len() / 4
    }

    fn lend_yard(&self) -> Lent {
        Lent::holding(&yard_to_bytes(&self.yard), self.seed)
    }

    fn at_once(&self, plan: &[u8], answer: Answer) -> Answer {
        let (mut yard, mut engaged) = (self.lend_yard(), Lent::pattern(self.ticks(), self.seed));
        let ran = calls::run(plan, yard.bytes_mut(), &self.roll, usize::MAX, engaged.bytes_mut());
        answer
            .with("at once: number", ran.verdict.number as u64)
            .with("at once: ticks", ran.ticks as u64)
            .lending("at once: yard", yard)
            .lending("at once: engaged", engaged)
    }

    /// The engaged bytes are worked out from the yard after each tick: places 3 and 4 are Running and Exiting 1.
    fn by_ticks(&self, plan: &[u8], answer: Answer) -> Answer {
        let (mut yard, mut engaged) = (self.lend_yard(), Lent::pattern(self.ticks(), self.seed));
        let (mut letters, mut refused) = (Lent::pattern(2 * self.ticks(), self.seed), 0);
        for (k, r) in self.roll.chunks_exact(4).enumerate() {
            let ticked = calls::tick(plan, yard.bytes_mut(), [r[0], r[1], r[2], r[3]]);
            refused |= ticked.verdict.number;
            letters.bytes_mut()[2 * k..][..2].copy_from_slice(&[ticked.down, ticked.device]);
            engaged.bytes_mut()[k] = engaged_bits(yard.bytes());
        }
        answer
            .with("by ticks: number", refused as u64)
            .lending("by ticks: yard", yard)
            .lending("by ticks: engaged", engaged)
            .lending("by ticks: letters", letters)
    }

    /// Each piece is either cut from the roll, or a budget over all that is left of it.
    fn in_pieces(&self, plan: &[u8], answer: Answer) -> Answer {
        let (mut yard, mut engaged) = (self.lend_yard(), Lent::pattern(self.ticks(), self.seed));
        let rng = &mut Rng::new(self.seed ^ 0x91EC);
        let (mut done, mut refused) = (0, 0);
        while done < self.ticks() && refused == 0 {
            let piece = rng.within(0, 40).min(self.ticks() - done);
            let end = if rng.chance(1, 2) { self.roll.len() } else { 4 * (done + piece) };
            let rest = &self.roll[4 * done..end];
            let ran = calls::run(plan, yard.bytes_mut(), rest, piece, &mut engaged.bytes_mut()[done..]);
            refused = ran.verdict.number as usize | (ran.ticks ^ piece);
            done += piece;
        }
        answer
            .with("in pieces: refused or too few", refused as u64)
            .lending("in pieces: yard", yard)
            .lending("in pieces: engaged", engaged)
    }

    fn listed(&self, plan: &[u8], answer: Answer) -> Answer {
        let (mut yard, mut text) = (self.lend_yard(), Lent::pattern(64 * (self.ticks() + 1), self.seed));
        let rng = &mut Rng::new(self.seed ^ 0x715E);
        let (mut done, mut length, mut refused) = (0, 0, 0);
        while done < self.ticks() && refused == 0 {
            let room = rng.within(64, 400).min(text.bytes().len() - length);
            let out = &mut text.bytes_mut()[length..][..room];
            let listed = calls::list(plan, yard.bytes_mut(), &self.roll[4 * done..], done as u32, out);
            refused = listed.verdict.number as u64 | (listed.ticks == 0) as u64;
            (done, length) = (done + listed.ticks, length + listed.length);
        }
        answer
            .with("listed: refused or none done", refused)
            .with("listed: length", length as u64)
            .lending("listed: yard", yard)
            .lending("listed: text", text)
    }

    /// The down letters of the model's ticks, and its end.
    fn model_letters(&self) -> Lent {
        let mut letters = Lent::pattern(2 * self.ticks(), self.seed);
        let mut now = self.yard;
        for (k, r) in self.roll.chunks_exact(4).enumerate() {
            let (_, after, down) = model::tick(&self.plan, &now, Record::from_bytes([r[0], r[1], r[2], r[3]]));
            let (down, device) = down_numbers(down);
            letters.bytes_mut()[2 * k..][..2].copy_from_slice(&[down, device]);
            now = after;
        }
        letters
    }
}

fn engaged_bits(yard: &[u8]) -> u8 {
    let places = yard[8..].chunks_exact(4).map(|device| device[2]);
    places.enumerate().fold(0, |bits, (k, place)| bits | ((place == 3 || place == 4) as u8) << k)
}

impl Trial for Chain {
    fn input(&self) -> Vec<(&'static str, String)> {
        vec![
            ("the plan", format!("{:?}", self.plan)),
            shown("plan", &plan_to_bytes(&self.plan)),
            shown("yard", &yard_to_bytes(&self.yard)),
            shown("roll", &self.roll),
        ]
    }

    fn library(&self) -> Answer {
        let plan = plan_to_bytes(&self.plan);
        let answer = self.at_once(&plan, Answer::default());
        let answer = self.by_ticks(&plan, answer);
        let answer = self.in_pieces(&plan, answer);
        self.listed(&plan, answer)
    }

    /// One run of the model stands for all four ways.
    fn model(&self) -> Answer {
        let (mut yard, mut engaged) = (self.lend_yard(), Lent::pattern(self.ticks(), self.seed));
        let (verdict, end, ticks) = model::run(&self.plan, &self.yard, &self.roll, usize::MAX, engaged.bytes_mut());
        yard.bytes_mut().copy_from_slice(&yard_to_bytes(&end));
        let mut text = Lent::pattern(64 * (self.ticks() + 1), self.seed);
        let (_, _, _, length) = listing::list(&self.plan, &self.yard, &self.roll, 0, text.bytes_mut());
        Answer::default()
            .with("at once: number", verdict.number as u64)
            .with("at once: ticks", ticks as u64)
            .lending("at once: yard", yard.clone())
            .lending("at once: engaged", engaged.clone())
            .with("by ticks: number", 0)
            .lending("by ticks: yard", yard.clone())
            .lending("by ticks: engaged", engaged.clone())
            .lending("by ticks: letters", self.model_letters())
            .with("in pieces: refused or too few", 0)
            .lending("in pieces: yard", yard.clone())
            .lending("in pieces: engaged", engaged)
            .with("listed: refused or none done", 0)
            .with("listed: length", length as u64)
            .lending("listed: yard", yard)
            .lending("listed: text", text)
    }

    fn count(&self, _: &Answer, counts: &mut Counts) {
        counts.more(Group::Ticks, 3, self.ticks() as u64);
    }
}
