//! Plan and yard as the bytes that cross the border: little-endian, 104 and 40 of them.

use crate::types::{Base, Device, Letter, Place, Plan, Slot, Yard, SLOTS};

pub const PLAN: usize = 104;
pub const YARD: usize = 40;

/// The two-byte number at `at`; callers stay inside.
pub(crate) fn u16_at(bytes: &[u8], at: usize) -> u16 {
    u16::from_le_bytes([bytes[at], bytes[at + 1]])
}

fn slot_at(bytes: &[u8], at: usize) -> Slot {
    let word = |k: usize| u16_at(bytes, at + 2 * k);
    Slot { f: word(0), e: word(1), r: word(2), x: word(3), g: word(4), s: word(5) }
}

/// N, W, B, Q and as many device slots as `bytes` holds, up to eight; the others are zero. The body of a plan file
/// has the same order, with n slots. `bytes` holds at least the first eight.
pub(crate) fn plan_of(bytes: &[u8]) -> Plan {
    let mut plan =
        Plan { n: u16_at(bytes, 0), w: u16_at(bytes, 2), b: u16_at(bytes, 4), q: u16_at(bytes, 6), ..Plan::default() };
    let held = ((bytes.len() - 8) / 12).min(SLOTS);
    for k in 0..held {
        plan.slots[k] = slot_at(bytes, 8 + 12 * k);
    }
    plan
}

pub fn plan_from_bytes(bytes: &[u8; PLAN]) -> Plan {
    plan_of(bytes)
}

pub fn plan_to_bytes(plan: &Plan) -> [u8; PLAN] {
    let mut words = vec![plan.n, plan.w, plan.b, plan.q];
    for slot in &plan.slots {
        words.extend([slot.f, slot.e, slot.r, slot.x, slot.g, slot.s]);
    }
    let mut bytes = [0; PLAN];
    for (pair, word) in bytes.chunks_exact_mut(2).zip(words) {
        pair.copy_from_slice(&word.to_le_bytes());
    }
    bytes
}

fn base_bytes(base: Base) -> [u8; 2] {
    match base {
        Base::FallBack => [0, 0],
        Base::Lease(i) => [1, i],
        Base::Cancel(i) => [2, i],
        Base::Abort(i) => [3, i],
    }
}

fn base_from(kind: u8, device: u8) -> Option<Base> {
    match (kind, device) {
        (0, 0) => Some(Base::FallBack),
        (1, i) => Some(Base::Lease(i)),
        (2, i) => Some(Base::Cancel(i)),
        (3, i) => Some(Base::Abort(i)),
        _ => None,
    }
}

const PLACES: [Place; 6] =
    [Place::FallBack, Place::Requesting, Place::Entering, Place::Running, Place::Exiting1, Place::Exiting2];
const LETTERS: [Letter; 6] =
    [Letter::None, Letter::Request, Letter::Cancel, Letter::Approve, Letter::Deny, Letter::Exit];

fn device_from(bytes: &[u8]) -> Option<Device> {
    let place = *PLACES.get(bytes[2] as usize)?;
    let letter = *LETTERS.get(bytes[3] as usize)?;
    Some(Device { clock: u16_at(bytes, 0), place, letter })
}

pub fn yard_to_bytes(yard: &Yard) -> [u8; YARD] {
    let mut bytes = [0; YARD];
    bytes[0..2].copy_from_slice(&base_bytes(yard.base));
    bytes[2..4].copy_from_slice(&yard.clock.to_le_bytes());
    bytes[4..8].copy_from_slice(&yard.lease.to_le_bytes());
    for (four, device) in bytes[8..].chunks_exact_mut(4).zip(&yard.devices) {
        four[0..2].copy_from_slice(&device.clock.to_le_bytes());
        four[2] = device.place as u8;
        four[3] = device.letter as u8;
    }
    bytes
}

/// None for bytes that are no yard's: these are refused with 11, where a state that is not well formed is.
pub fn yard_from_bytes(bytes: &[u8; YARD]) -> Option<Yard> {
    let base = base_from(bytes[0], bytes[1])?;
    let lease = u32::from_le_bytes([bytes[4], bytes[5], bytes[6], bytes[7]]);
    let mut yard = Yard { base, clock: u16_at(bytes, 2), lease, ..Yard::FRESH };
    for (device, four) in yard.devices.iter_mut().zip(bytes[8..].chunks_exact(4)) {
        *device = device_from(four)?;
    }
    Some(yard)
}
