use super::step::Times;
use crate::types::{Base, Device, Letter, Place, Plan, Yard};

/// Whether the state is well formed, under an accepted plan.
pub fn state_is_good(plan: &Plan, yard: &Yard) -> bool {
    let times = Times::of(plan);
    let n = times.n as u8;
    let base = match yard.base {
        Base::FallBack => yard.clock <= plan.b && yard.lease == 0,
        Base::Lease(i) if i < n => i >= 1 && yard.clock < plan.w && yard.lease < times.ls,
        Base::Lease(i) | Base::Cancel(i) | Base::Abort(i) => {
            (1..=n).contains(&i) && yard.clock == 0 && yard.lease < times.ls
        }
    };
    let (devices, above) = yard.devices.split_at(times.n);
    base && devices.iter().enumerate().all(|(k, d)| device_is_good(&times, k, d))
        && above.iter().all(|d| *d == Device::FRESH)
}

fn device_is_good(times: &Times, k: usize, d: &Device) -> bool {
    let due = times.due[k][d.place as usize];
    let clock = if d.place == Place::FallBack { d.clock <= due } else { d.clock < due };
    let participant = k + 1 < times.n;
    let letter = match d.letter {
        Letter::None => true,
        Letter::Approve => participant && d.place == Place::Entering && d.clock == 0,
        Letter::Deny => participant && d.place == Place::FallBack && d.clock == 0,
        _ => false,
    };
    clock && letter && !(participant && d.place == Place::Requesting)
}
