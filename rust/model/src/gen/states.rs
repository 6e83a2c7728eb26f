//! States, as the 40 bytes of a yard, for a plan: reached, damaged, well formed at random, broken, raw.

use super::{rolls, Rng};
use crate::bytes::{yard_to_bytes, YARD};
use crate::types::{Base, Device, Letter, Place, Plan, Yard};
use crate::yard::run;

/// A state that a run from the fresh yard comes to; the fresh yard for a refused plan.
pub fn reached(rng: &mut Rng, plan: &Plan) -> Yard {
    let round = plan.ls() + plan.b as usize + plan.slots[0].f as usize;
    let ticks = rng.below(3 * round.min(60));
    let roll = rolls::valid(rng, plan, ticks);
    run(plan, &Yard::FRESH, &roll, ticks, &mut vec![0; ticks]).1
}

/// A clock of 0..limit, often at either end.
fn clock(rng: &mut Rng, limit: u16) -> u16 {
    let last = limit.saturating_sub(1);
    let inside = rng.below(limit as usize) as u16;
    rng.pick(&[0, last, inside])
}

/// A state drawn from all that are well formed under an accepted plan, reached or not.
pub fn well_formed(rng: &mut Rng, plan: &Plan) -> Yard {
    let n = plan.devices();
    let mut yard = base(rng, plan);
    for i in 1..=n {
        yard.devices[i - 1] = device(rng, plan, i);
        if i < n && rng.chance(1, 3) {
            give_letter(rng, &mut yard.devices[i - 1]);
        }
    }
    yard
}

fn base(rng: &mut Rng, plan: &Plan) -> Yard {
    let n = plan.devices();
    let i = rng.within(1, n) as u8;
    let mut yard = Yard { clock: 0, ..Yard::FRESH };
    match rng.below(6) {
        0 => yard.clock = clock(rng, plan.b.saturating_add(1)),
        1 | 2 => yard.base = Base::Lease(i),
        3 => yard.base = Base::Lease(n as u8),
        4 => yard.base = Base::Cancel(i),
        _ => yard.base = Base::Abort(i),
    }
    if yard.base != Base::FallBack {
        let ls = plan.ls().max(1);
        let inside = rng.below(ls);
        yard.lease = rng.pick(&[0, ls - 1, ls.saturating_sub(2), inside]) as u32;
    }
    if matches!(yard.base, Base::Lease(i) if (i as usize) < n) {
        yard.clock = clock(rng, plan.w);
    }
    yard
}

fn device(rng: &mut Rng, plan: &Plan, i: usize) -> Device {
    let slot = plan.slot(i);
    let (place, limit) = match rng.below(if i == plan.devices() { 6 } else { 5 }) {
        0 => (Place::FallBack, slot.f.saturating_add(1)),
        1 => (Place::Entering, slot.e),
        2 => (Place::Running, slot.r),
        3 => (Place::Exiting1, slot.x),
        4 => (Place::Exiting2, slot.x),
        _ => (Place::Requesting, plan.q),
    };
    Device { clock: clock(rng, limit), place, letter: Letter::None }
}

/// Approve or Deny to a participant that may hold it.
fn give_letter(rng: &mut Rng, device: &mut Device) {
    let approve = rng.chance(1, 2);
    *device = Device {
        clock: 0,
        place: if approve { Place::Entering } else { Place::FallBack },
        letter: if approve { Letter::Approve } else { Letter::Deny },
    };
}

/// The limit that the clock of a device in this place must not pass, and one more.
fn too_late(plan: &Plan, i: usize, place: Place) -> u16 {
    let slot = plan.slot(i);
    match place {
        Place::FallBack => slot.f.saturating_add(1),
        Place::Requesting => plan.q,
        Place::Entering => slot.e,
        Place::Running => slot.r,
        Place::Exiting1 | Place::Exiting2 => slot.x,
    }
}

/// A well-formed state with one sentence of "well formed" broken.
pub fn broken(rng: &mut Rng, plan: &Plan) -> Yard {
    let mut yard = well_formed(rng, plan);
    if rng.chance(1, 3) {
        break_base(rng, plan, &mut yard);
    } else {
        break_device(rng, plan, &mut yard);
    }
    yard
}

fn break_base(rng: &mut Rng, plan: &Plan, yard: &mut Yard) {
    let n = plan.n as u8;
    let inner = rng.within(1, plan.devices()) as u8;
    let outside = rng.pick(&[0, n.wrapping_add(1), 9, 255]);
    yard.clock = 0;
    yard.lease = 0;
    yard.base = rng.pick(&[Base::Lease(inner), Base::Cancel(inner), Base::Abort(inner)]);
    match rng.below(7) {
        0 => yard.base = rng.pick(&[Base::Lease(outside), Base::Cancel(outside), Base::Abort(outside)]),
        1 => (yard.base, yard.clock) = (Base::FallBack, plan.b.wrapping_add(1)),
        2 => (yard.base, yard.clock) = (Base::Lease(1), plan.w),
        3 => (yard.base, yard.clock) = (rng.pick(&[Base::Lease(n), Base::Cancel(1), Base::Abort(1)]), 1),
        4 => (yard.base, yard.lease) = (Base::FallBack, 1),
        5 => yard.lease = plan.ls() as u32,
        _ => yard.lease = rng.pick(&[u32::MAX, 65_536, 1 << 31]),
    }
}

fn break_device(rng: &mut Rng, plan: &Plan, yard: &mut Yard) {
    let n = plan.devices().max(1);
    let i = rng.within(1, n);
    let outer = rng.within(1, n.saturating_sub(1)).min(7);
    let above = rng.within(n, 8).max(1);
    let one = yard.devices[i - 1];
    let (k, device) = match rng.below(8) {
        0 | 1 => (i, Device { clock: too_late(plan, i, one.place), ..one }),
        2 => (outer, Device { clock: 0, place: Place::Requesting, letter: Letter::None }),
        3 => (n, Device { letter: rng.pick(&[Letter::Request, Letter::Cancel, Letter::Exit]), ..yard.device(n) }),
        4 => (n, Device { clock: 0, place: Place::Entering, letter: Letter::Approve }),
        5 => {
            (outer, Device { letter: rng.pick(&[Letter::Request, Letter::Cancel, Letter::Exit]), ..yard.device(outer) })
        }
        6 => (outer, misplaced(rng)),
        _ => (above, Device { clock: rng.pick(&[0, 1]), place: Place::Running, letter: Letter::Approve }),
    };
    yard.devices[k - 1] = device;
}

/// An Approve or Deny in a wrong place or at clock 1.
fn misplaced(rng: &mut Rng) -> Device {
    let letter = rng.pick(&[Letter::Approve, Letter::Deny]);
    let right = if letter == Letter::Approve { Place::Entering } else { Place::FallBack };
    let wrong = if letter == Letter::Approve { Place::FallBack } else { Place::Entering };
    match rng.below(3) {
        0 => Device { clock: 1, place: right, letter },
        1 => Device { clock: 0, place: wrong, letter },
        _ => Device { clock: 0, place: Place::Running, letter },
    }
}

/// A reached state with one of its bytes or numbers changed: it may be malformed, broken or still well formed.
pub fn damaged(rng: &mut Rng, plan: &Plan) -> [u8; YARD] {
    let mut bytes = yard_to_bytes(&reached(rng, plan));
    let anywhere = rng.below(YARD);
    let at = rng.pick(&[0, 1, 2, 3, 4, 5, 8, 10, 11, anywhere]);
    bytes[at] = match rng.below(4) {
        0 => bytes[at].wrapping_add(1),
        1 => bytes[at].wrapping_sub(1),
        2 => rng.below(7) as u8,
        _ => rng.byte(),
    };
    bytes
}

/// Forty bytes at random, small ones so that they often are a yard's, or any.
pub fn raw(rng: &mut Rng) -> [u8; YARD] {
    let most = rng.pick(&[1, 3, 6, 255]);
    std::array::from_fn(|_| rng.within(0, most) as u8)
}

/// A state of any kind, as bytes; most are well formed under an accepted plan.
pub fn any(rng: &mut Rng, plan: &Plan) -> [u8; YARD] {
    match rng.below(20) {
        0 | 1 => yard_to_bytes(&broken(rng, plan)),
        2 => damaged(rng, plan),
        3 => raw(rng),
        4..=11 => yard_to_bytes(&well_formed(rng, plan)),
        12..=15 => yard_to_bytes(&reached(rng, plan)),
        _ => yard_to_bytes(&Yard::FRESH),
    }
}
