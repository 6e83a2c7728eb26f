//! The four steps of one tick, for a plan, state and record that were not refused. The supervisor's part of step 3
//! has its own file.

use crate::supervisor::step3_supervisor;
use crate::types::{Base, Device, Down, Letter, Place, Plan, Record, Yard, SLOTS};

/// The letters heard, a slot a device; `Letter::None` where none was written or it was lost.
pub(crate) type Heard = [Letter; SLOTS];

pub(crate) fn steps(plan: &Plan, yard: &Yard, record: Record) -> (Yard, Down) {
    let mut yard = *yard;
    step1_clocks(plan, &mut yard);
    step2_moves(plan, &mut yard, record.command);
    let heard = step3_letters(&mut yard, record);
    let down = step3_supervisor(plan, &mut yard, &heard, record.approval());
    if !record.down_lost() {
        step4_arrival(plan, &mut yard, down, record);
    }
    (yard, down)
}

/// "These clocks add 1: the place clock in Fall-Back and in Lease i with i < N, the lease clock outside Fall-Back,
/// those of devices 1 to N. Fall-Back clocks stop at B or F."
fn step1_clocks(plan: &Plan, yard: &mut Yard) {
    match yard.base {
        Base::FallBack => yard.clock = (yard.clock + 1).min(plan.b),
        Base::Lease(i) if (i as usize) < plan.devices() => yard.clock += 1,
        _ => {}
    }
    if yard.base != Base::FallBack {
        yard.lease += 1;
    }
    for k in 0..plan.devices() {
        let device = &mut yard.devices[k];
        device.clock += 1;
        if device.place == Place::FallBack {
            device.clock = device.clock.min(plan.slots[k].f);
        }
    }
}

/// "a new place starts its clock at 0, here and in step 4." A move without a letter of its own keeps a waiting one.
fn go(device: &mut Device, place: Place) {
    device.place = place;
    device.clock = 0;
}

fn go_with(device: &mut Device, place: Place, letter: Letter) {
    go(device, place);
    device.letter = letter;
}

fn step2_moves(plan: &Plan, yard: &mut Yard, command: u8) {
    let n = plan.devices();
    for i in 1..=n {
        let was_due = due_move(plan, i, &mut yard.devices[i - 1]);
        // "Only if nothing was due for it, the initializer heeds the command."
        if i == n && !was_due {
            heed(plan, &mut yard.devices[i - 1], command);
        }
    }
}

/// The due time of the device's place, and whether it was reached.
fn due_move(plan: &Plan, i: usize, device: &mut Device) -> bool {
    let times = plan.slot(i);
    let at = device.clock;
    match device.place {
        Place::Requesting if at == plan.q => go(device, Place::FallBack),
        Place::Entering if at == times.e => go(device, Place::Running),
        Place::Running if at == times.r => go(device, Place::Exiting1),
        Place::Exiting1 | Place::Exiting2 if at == times.x => go_with(device, Place::FallBack, Letter::Exit),
        _ => return false,
    }
    true
}

/// The initializer's command; "A command elsewhere is ignored."
fn heed(plan: &Plan, blade: &mut Device, command: u8) {
    let rested = blade.clock == plan.slot(plan.devices()).f;
    match (command, blade.place) {
        (Record::REQUEST, Place::FallBack) if rested => go_with(blade, Place::Requesting, Letter::Request),
        (Record::CANCEL, Place::Requesting) => go_with(blade, Place::FallBack, Letter::Cancel),
        (Record::CANCEL, Place::Entering) => go_with(blade, Place::Exiting2, Letter::Cancel),
        (Record::CANCEL, Place::Running) => go_with(blade, Place::Exiting1, Letter::Cancel),
        _ => {}
    }
}

/// "All letters go up and are then gone; those not lost are heard."
fn step3_letters(yard: &mut Yard, record: Record) -> Heard {
    let mut heard = [Letter::None; SLOTS];
    for i in 1..=SLOTS {
        let letter = std::mem::replace(&mut yard.devices[i - 1].letter, Letter::None);
        if !record.is_lost(i) {
            heard[i - 1] = letter;
        }
    }
    heard
}

/// "The down letter, if not lost, arrives." It may move a device that step 2 has moved already.
fn step4_arrival(plan: &Plan, yard: &mut Yard, down: Down, record: Record) {
    match down {
        Down::None => {}
        Down::LeaseReq(i) => asked(plan, i as usize, yard, record),
        Down::Grant(i) => {
            let device = &mut yard.devices[i as usize - 1];
            if device.place == Place::Requesting {
                go(device, Place::Entering);
            }
        }
        Down::Cancel(i) | Down::Abort(i) => {
            let device = &mut yard.devices[i as usize - 1];
            match device.place {
                Place::Entering => go(device, Place::Exiting2),
                Place::Running => go(device, Place::Exiting1),
                _ => {}
            }
        }
    }
}

/// "below clock F it ignores the letter."
fn asked(plan: &Plan, i: usize, yard: &mut Yard, record: Record) {
    let device = &mut yard.devices[i - 1];
    if device.place != Place::FallBack || device.clock != plan.slot(i).f {
        return;
    }
    if record.is_willing(i) {
        go_with(device, Place::Entering, Letter::Approve);
    } else {
        go_with(device, Place::FallBack, Letter::Deny);
    }
}
