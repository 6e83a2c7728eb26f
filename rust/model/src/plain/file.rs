use super::check;
use crate::types::{Plan, Slot, Verdict};

fn word(bytes: &[u8], k: usize) -> u16 {
    u16::from_le_bytes([bytes[2 * k], bytes[2 * k + 1]])
}

/// Reads a plan file; a refused one gives an all-zero plan.
pub fn read(file: &[u8]) -> (Verdict, Plan) {
    let refused = |number| (Verdict { number, index: 0 }, Plan::default());
    if file.len() < 42 || file.len() > 65_536 {
        return refused(14);
    }
    let trailer = &file[file.len() - 10..];
    if trailer[8] != 0x59 || trailer[9] != 0x50 {
        return refused(15);
    }
    if word(trailer, 1) != 1 {
        return refused(16);
    }
    let length = word(trailer, 0) as usize;
    if !(32..=104).contains(&length) || !(length - 8).is_multiple_of(12) {
        return refused(17);
    }
    let distance = word(trailer, 2) as usize | (word(trailer, 3) as usize) << 16;
    if distance < length + 10 || distance > file.len() {
        return refused(18);
    }
    let start = file.len() - distance;
    let plan = plan_of(&file[start..start + length]);
    if plan.n as usize != (length - 8) / 12 {
        return refused(19);
    }
    let verdict = check(&plan);
    if verdict.number != 0 {
        return (verdict, Plan::default());
    }
    (verdict, plan)
}

fn plan_of(body: &[u8]) -> Plan {
    let (head, rest) = body.split_at(8);
    let mut plan = Plan { n: word(head, 0), w: word(head, 1), b: word(head, 2), q: word(head, 3), ..Plan::default() };
    for (slot, d) in plan.slots.iter_mut().zip(rest.chunks_exact(12)) {
        *slot = Slot { f: word(d, 0), e: word(d, 1), r: word(d, 2), x: word(d, 3), g: word(d, 4), s: word(d, 5) };
    }
    plan
}

/// Writes a plan file without notes into the front of `file`, and answers how long it is.
pub fn write(plan: &Plan, file: &mut [u8]) -> (Verdict, usize) {
    let verdict = check(plan);
    if verdict.number != 0 {
        return (verdict, 0);
    }
    let body_length = 8 + 12 * plan.n as usize;
    let length = body_length + 10;
    let Some(file) = file.get_mut(..length) else {
        return (Verdict { number: 20, index: 0 }, 0);
    };
    let (body, trailer) = file.split_at_mut(body_length);
    let (head, rest) = body.split_at_mut(8);
    put(head, [plan.n, plan.w, plan.b, plan.q]);
    for (bytes, d) in rest.chunks_exact_mut(12).zip(&plan.slots) {
        put(bytes, [d.f, d.e, d.r, d.x, d.g, d.s]);
    }
    // The distance's high half is 0; the mark is 59 50 as bytes.
    put(trailer, [body_length as u16, 1, length as u16, 0, 0x5059]);
    (verdict, length)
}

fn put<const WORDS: usize>(bytes: &mut [u8], words: [u16; WORDS]) {
    for (pair, word) in bytes.chunks_exact_mut(2).zip(words) {
        pair.copy_from_slice(&word.to_le_bytes());
    }
}
