//! One case of each kind: what is lent, what the library answers, what the model answers.

pub mod both_ways;
pub mod chain;
pub mod file;
pub mod plan;
pub mod run;
pub mod sizes;
pub mod text;
pub mod tick;
pub mod watch;
pub mod write;

use crate::answer::Answer;
use crate::counts::{Counts, Group};
use crate::lent::hex;
use model::bytes::{yard_from_bytes, YARD};
use model::{Down, Plan, Verdict, Yard};

pub trait Trial {
    /// What is lent and asked, by name.
    fn input(&self) -> Vec<(&'static str, String)>;
    fn library(&self) -> Answer;
    fn model(&self) -> Answer;
    /// Counts an answer that library and model agree on.
    fn count(&self, answer: &Answer, counts: &mut Counts);
}

/// Input lines for buffers.
fn shown(name: &'static str, bytes: &[u8]) -> (&'static str, String) {
    (name, format!("{} bytes {}", bytes.len(), hex(bytes)))
}

/// The down letter's two numbers.
fn down_numbers(down: Down) -> (u8, u8) {
    match down {
        Down::None => (0, 0),
        Down::LeaseReq(i) => (1, i),
        Down::Grant(i) => (2, i),
        Down::Cancel(i) => (3, i),
        Down::Abort(i) => (4, i),
    }
}

/// The yard in these bytes, or what every call that takes one answers for bytes that are no yard's.
fn yard_or_refusal(plan: &Plan, bytes: &[u8; YARD]) -> Result<Yard, Verdict> {
    yard_from_bytes(bytes).ok_or_else(|| model::yard::malformed(plan))
}

/// The state that was lent, for a call that did not refuse its plan.
fn count_state(yard: &[u8; YARD], number: usize, counts: &mut Counts) {
    if (1..=9).contains(&number) {
        return;
    }
    let class = match yard_from_bytes(yard) {
        None => 3,
        Some(_) if number == 11 => 2,
        Some(Yard::FRESH) => 0,
        Some(_) => 1,
    };
    counts.hit(Group::State, class);
}

/// The roll that was lent, for a call that got as far as looking at it.
fn count_roll(roll: &[u8], number: usize, counts: &mut Counts) {
    let class = match number {
        0 | 13 if roll.is_empty() => 0,
        0 | 13 => 1,
        10 => 2,
        12 => 3,
        _ => return,
    };
    counts.hit(Group::Roll, class);
}

/// Where base and devices stand at the end of an accepted call, and the letters that wait.
fn count_end(plan: &Plan, yard: &[u8], counts: &mut Counts) {
    counts.hit(Group::Devices, plan.devices() - 2);
    counts.hit(Group::Base, yard[0] as usize);
    for device in yard[8..].chunks_exact(4).take(plan.devices()) {
        counts.hit(Group::Place, device[2] as usize);
        // Between ticks only Approve (3) and Deny (4) wait.
        counts.hit(Group::Letter, (device[3] as usize).saturating_sub(2));
    }
}
