//! The plain side, given the same bytes as the library: it decodes them, works on structs, and encodes what it answers.

use model::bytes::{PLAN, YARD};
use model::{plain, Base, Device, Letter, Place, Plan, Slot, Verdict, Yard};

const WRONG_LENGTH: Verdict = Verdict { number: 27, index: 0 };
const MALFORMED: Verdict = Verdict { number: 11, index: 0 };

#[inline]
fn word(bytes: &[u8; PLAN], k: usize) -> u16 {
    u16::from_le_bytes([bytes[2 * k], bytes[2 * k + 1]])
}

#[inline]
pub fn plan_of(bytes: &[u8; PLAN]) -> Plan {
    let slot = |k: usize| Slot {
        f: word(bytes, k),
        e: word(bytes, k + 1),
        r: word(bytes, k + 2),
        x: word(bytes, k + 3),
        g: word(bytes, k + 4),
        s: word(bytes, k + 5),
    };
    let slots = std::array::from_fn(|i| slot(4 + 6 * i));
    Plan { n: word(bytes, 0), w: word(bytes, 1), b: word(bytes, 2), q: word(bytes, 3), slots }
}

#[inline]
fn write_plan(plan: &Plan, bytes: &mut [u8; PLAN]) {
    let mut put = |k: usize, number: u16| bytes[2 * k..2 * k + 2].copy_from_slice(&number.to_le_bytes());
    [plan.n, plan.w, plan.b, plan.q].into_iter().enumerate().for_each(|(k, number)| put(k, number));
    for (i, d) in plan.slots.iter().enumerate() {
        [d.f, d.e, d.r, d.x, d.g, d.s].into_iter().enumerate().for_each(|(k, number)| put(4 + 6 * i + k, number));
    }
}

const PLACES: [Place; 6] =
    [Place::FallBack, Place::Requesting, Place::Entering, Place::Running, Place::Exiting1, Place::Exiting2];
const LETTERS: [Letter; 6] =
    [Letter::None, Letter::Request, Letter::Cancel, Letter::Approve, Letter::Deny, Letter::Exit];

#[inline]
fn yard_of(bytes: &[u8; YARD]) -> Option<Yard> {
    let base = match (bytes[0], bytes[1]) {
        (0, 0) => Base::FallBack,
        (1, i) => Base::Lease(i),
        (2, i) => Base::Cancel(i),
        (3, i) => Base::Abort(i),
        _ => return None,
    };
    let clock = u16::from_le_bytes([bytes[2], bytes[3]]);
    let lease = u32::from_le_bytes([bytes[4], bytes[5], bytes[6], bytes[7]]);
    let mut yard = Yard { base, clock, lease, ..Yard::FRESH };
    for (device, four) in yard.devices.iter_mut().zip(bytes[8..].chunks_exact(4)) {
        let (place, letter) = (*PLACES.get(four[2] as usize)?, *LETTERS.get(four[3] as usize)?);
        *device = Device { clock: u16::from_le_bytes([four[0], four[1]]), place, letter };
    }
    Some(yard)
}

#[inline]
fn write_yard(yard: &Yard, bytes: &mut [u8; YARD]) {
    (bytes[0], bytes[1]) = match yard.base {
        Base::FallBack => (0, 0),
        Base::Lease(i) => (1, i),
        Base::Cancel(i) => (2, i),
        Base::Abort(i) => (3, i),
    };
    bytes[2..4].copy_from_slice(&yard.clock.to_le_bytes());
    bytes[4..8].copy_from_slice(&yard.lease.to_le_bytes());
    for (four, device) in bytes[8..].chunks_exact_mut(4).zip(&yard.devices) {
        four[0..2].copy_from_slice(&device.clock.to_le_bytes());
        (four[2], four[3]) = (device.place as u8, device.letter as u8);
    }
}

pub fn check(plan: &[u8]) -> Verdict {
    match plan.try_into() {
        Ok(bytes) => plain::check(&plan_of(bytes)),
        Err(_) => WRONG_LENGTH,
    }
}

/// Plan and yard as structs; the yard is written back when the work on them was not refused.
fn moved<T>(
    plan: &[u8],
    yard: &mut [u8],
    none: T,
    work: impl FnOnce(&Plan, &mut Yard) -> (Verdict, T),
) -> (Verdict, T) {
    let (Ok(plan), Ok(bytes)) = (<&[u8; PLAN]>::try_from(plan), <&mut [u8; YARD]>::try_from(yard)) else {
        return (WRONG_LENGTH, none);
    };
    let plan = plan_of(plan);
    let Some(mut yard) = yard_of(bytes) else {
        let verdict = plain::check(&plan);
        return (if verdict.accepted() { MALFORMED } else { verdict }, none);
    };
    let answer = work(&plan, &mut yard);
    if answer.0.accepted() {
        write_yard(&yard, bytes);
    }
    answer
}

pub fn run(plan: &[u8], yard: &mut [u8], roll: &[u8], budget: usize, engaged: &mut [u8]) -> (Verdict, usize) {
    moved(plan, yard, 0, |plan, yard| plain::run(plan, yard, roll, budget, engaged))
}

/// A single tick is a run over one record: the same checks and the same move, without the letter in the answer.
pub fn tick(plan: &[u8], yard: &mut [u8], record: [u8; 4]) -> Verdict {
    run(plan, yard, &record, 1, &mut [0]).0
}

pub fn list(plan: &[u8], yard: &mut [u8], roll: &[u8], first: u32, out: &mut [u8]) -> (Verdict, (usize, usize)) {
    moved(plan, yard, (0, 0), |plan, yard| {
        let (verdict, ticks, length) = plain::list(plan, yard, roll, first, out);
        (verdict, (ticks, length))
    })
}

pub fn read(file: &[u8], plan: &mut [u8]) -> Verdict {
    let Ok(bytes) = plan.try_into() else {
        return WRONG_LENGTH;
    };
    let (verdict, taken) = plain::read(file);
    if verdict.accepted() {
        write_plan(&taken, bytes);
    }
    verdict
}

pub fn write(plan: &[u8], file: &mut [u8]) -> (Verdict, usize) {
    match plan.try_into() {
        Ok(bytes) => plain::write(&plan_of(bytes), file),
        Err(_) => (WRONG_LENGTH, 0),
    }
}
