//! Plan files: good ones with notes around the body, each refusal, damaged, cut short, at the boundary sizes.

use super::{plans, Rng};
use crate::bytes::plan_to_bytes;
use crate::types::Plan;

pub const LARGEST: usize = 65_536;

/// The parts of a plan file; `distance` is from the file's end to the body.
struct Parts {
    before: Vec<u8>,
    body: Vec<u8>,
    after: Vec<u8>,
    length: u16,
    version: u16,
    distance: u32,
    mark: [u8; 2],
}

impl Parts {
    fn of(plan: &Plan, before: Vec<u8>, after: Vec<u8>) -> Parts {
        let length = 8 + 12 * plan.devices();
        Parts {
            before,
            body: plan_to_bytes(plan)[..length].to_vec(),
            length: length as u16,
            version: 1,
            distance: (length + after.len() + 10) as u32,
            after,
            mark: [0x59, 0x50],
        }
    }

    fn bytes(&self) -> Vec<u8> {
        let mut file = [&self.before[..], &self.body, &self.after].concat();
        file.extend(self.length.to_le_bytes());
        file.extend(self.version.to_le_bytes());
        file.extend(self.distance.to_le_bytes());
        file.extend(self.mark);
        file
    }

    fn size(&self) -> usize {
        self.before.len() + self.body.len() + self.after.len() + 10
    }
}

/// The file of a plan with these notes before and after its body; the first N slots, N held to 8.
pub fn file_of(plan: &Plan, before: &[u8], after: &[u8]) -> Vec<u8> {
    Parts::of(plan, before.to_vec(), after.to_vec()).bytes()
}

fn notes(rng: &mut Rng) -> Vec<u8> {
    let length = rng.pick(&[0, 0, 1, 7, 12, 40]);
    (0..length).map(|_| rng.pick(&[0, 1, 0x50, 0x59, b' ', b'n'])).collect()
}

fn parts(rng: &mut Rng, plan: &Plan) -> Parts {
    let (before, after) = (notes(rng), notes(rng));
    Parts::of(plan, before, after)
}

pub fn good(rng: &mut Rng) -> Vec<u8> {
    let plan = plans::accepted(rng);
    parts(rng, &plan).bytes()
}

/// A plan of 2..8 devices that may be refused, so that 2 to 9 come up.
fn refusable(rng: &mut Rng) -> Plan {
    loop {
        let plan = plans::edge(rng);
        if (2..=8).contains(&plan.n) {
            return plan;
        }
    }
}

pub fn of_edge_plan(rng: &mut Rng) -> Vec<u8> {
    let mut plan = refusable(rng);
    if rng.chance(1, 6) {
        let last = &mut plan.slots[plan.n as usize - 1];
        *(if rng.chance(1, 2) { &mut last.g } else { &mut last.s }) = 1;
    }
    parts(rng, &plan).bytes()
}

/// A good file with one thing wrong that 15 to 19 name, or just not wrong.
pub fn wrong_trailer(rng: &mut Rng) -> Vec<u8> {
    let plan = plans::accepted(rng);
    let mut p = parts(rng, &plan);
    let size = p.size() as u32;
    let least = p.length as u32 + 10;
    let other_n = rng.within(0, 9) as u16;
    match rng.below(6) {
        0 => p.mark = rng.pick(&[[0x50, 0x59], [0x59, 0x51], [0x58, 0x50], [0, 0]]),
        1 => p.version = rng.pick(&[0, 2, 256, 257, 65_535]),
        2 => p.length = rng.pick(&[0, 8, 20, 31, 33, 103, 105, 116, 65_535, p.length + 1]),
        3 => p.distance = rng.pick(&[least - 1, least, size, size + 1, 0, 10, u32::MAX, 1 << 31]),
        4 => p.length = 8 + 12 * rng.within(2, 8) as u16,
        _ => p.body[..2].copy_from_slice(&rng.pick(&[other_n, 65_535, plan.n + 256]).to_le_bytes()),
    }
    p.bytes()
}

/// A good file with one byte changed.
pub fn damaged(rng: &mut Rng) -> Vec<u8> {
    let mut file = good(rng);
    let from_end = rng.within(1, file.len());
    let near_end = rng.within(1, 10);
    let at = file.len() - rng.pick(&[from_end, near_end]);
    file[at] = match rng.below(3) {
        0 => file[at].wrapping_add(1),
        1 => file[at].wrapping_sub(1),
        _ => rng.byte(),
    };
    file
}

/// A good file without some of its first or last bytes.
pub fn cut(rng: &mut Rng) -> Vec<u8> {
    let file = good(rng);
    let left = rng.below(file.len());
    if rng.chance(1, 2) {
        file[..left].to_vec()
    } else {
        file[file.len() - left..].to_vec()
    }
}

/// A file of 41, 42, 65,536 or 65,537 bytes whose trailer is good, with notes where they are needed.
pub fn of_boundary_size(rng: &mut Rng) -> Vec<u8> {
    let size = rng.pick(&[41, 42, LARGEST, LARGEST + 1]);
    let mut plan = plans::lively(rng);
    while size <= 42 && plan.n != 2 {
        plan = plans::lively(rng);
    }
    let bare = Parts::of(&plan, vec![], vec![]).bytes();
    if bare.len() > size {
        return bare[1..].to_vec();
    }
    let around = size - bare.len();
    let after = rng.pick(&[0, around]);
    file_of(&plan, &vec![b'n'; around - after], &vec![b'n'; after])
}

/// Random bytes, some with the right mark at the end.
pub fn random(rng: &mut Rng) -> Vec<u8> {
    let mut file: Vec<u8> = (0..rng.below(150)).map(|_| rng.byte()).collect();
    if rng.chance(1, 2) {
        file.extend([32, 0, 1, 0, rng.byte(), 0, 0, 0, 0x59, 0x50]);
    }
    file
}

/// A file of any kind. The largest sizes are rare, since they cost time.
pub fn any(rng: &mut Rng) -> Vec<u8> {
    match rng.below(64) {
        0..=15 => good(rng),
        16..=31 => of_edge_plan(rng),
        32..=47 => wrong_trailer(rng),
        48..=53 => damaged(rng),
        54..=58 => cut(rng),
        59..=62 => random(rng),
        _ => of_boundary_size(rng),
    }
}
