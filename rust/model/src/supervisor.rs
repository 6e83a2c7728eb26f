//! Step 3, the supervisor: it "does the first that applies".

use crate::steps::Heard;
use crate::types::{Base, Down, Letter, Plan, Yard};

/// What the supervisor does: the place it goes to and the letter it sends. None when nothing applies.
type Deed = Option<(Base, Down)>;

pub(crate) fn step3_supervisor(plan: &Plan, yard: &mut Yard, heard: &Heard, approval: bool) -> Down {
    let Some((base, down)) = deed(plan, yard, heard, approval) else {
        return Down::None;
    };
    // "Every change of place sets the place clock to 0"; the lease clock is 0 on Fall-Back and starts at 0 with Lease
    // 1.
    if yard.base == Base::FallBack || base == Base::FallBack {
        yard.lease = 0;
    }
    yard.base = base;
    yard.clock = 0;
    down
}

fn deed(plan: &Plan, yard: &Yard, heard: &Heard, approval: bool) -> Deed {
    let lease_over = yard.lease as usize == plan.ls();
    match yard.base {
        Base::FallBack => fall_back(plan, yard, heard, approval),
        _ if lease_over => Some((Base::FallBack, Down::None)),
        Base::Lease(i) if (i as usize) < plan.devices() => lease(plan, i, yard.clock, heard, approval),
        Base::Lease(n) => last_lease(n, heard, approval),
        Base::Cancel(i) => after_exit(i, heard, cancel),
        Base::Abort(i) => after_exit(i, heard, abort),
    }
}

fn cancel(i: u8) -> (Base, Down) {
    (Base::Cancel(i), Down::Cancel(i))
}

fn abort(i: u8) -> (Base, Down) {
    (Base::Abort(i), Down::Abort(i))
}

/// The same kind one device further out, "or Fall-Back when i = 1".
fn outward(i: u8, kind: fn(u8) -> (Base, Down)) -> (Base, Down) {
    if i == 1 {
        (Base::FallBack, Down::None)
    } else {
        kind(i - 1)
    }
}

fn from(i: u8, heard: &Heard) -> Letter {
    heard[i as usize - 1]
}

fn fall_back(plan: &Plan, yard: &Yard, heard: &Heard, approval: bool) -> Deed {
    let requested = heard.contains(&Letter::Request);
    if requested && yard.clock == plan.b && approval {
        return Some((Base::Lease(1), Down::LeaseReq(1)));
    }
    None
}

/// Lease i with i < N. The order decides: an Approve in the same tick beats the wait W.
fn lease(plan: &Plan, i: u8, clock: u16, heard: &Heard, approval: bool) -> Deed {
    if !approval {
        Some(abort(i))
    } else if heard.contains(&Letter::Cancel) {
        Some(cancel(i))
    } else if from(i, heard) == Letter::Approve {
        let next = i + 1;
        let last = next as usize == plan.devices();
        Some((Base::Lease(next), if last { Down::Grant(next) } else { Down::LeaseReq(next) }))
    } else if from(i, heard) == Letter::Deny {
        Some(outward(i, cancel))
    } else if clock == plan.w {
        Some(cancel(i))
    } else {
        None
    }
}

fn last_lease(n: u8, heard: &Heard, approval: bool) -> Deed {
    if from(n, heard) == Letter::Exit {
        Some(cancel(n - 1))
    } else if !approval {
        Some(abort(n))
    } else if heard.contains(&Letter::Cancel) {
        Some(cancel(n))
    } else {
        None
    }
}

fn after_exit(i: u8, heard: &Heard, kind: fn(u8) -> (Base, Down)) -> Deed {
    if from(i, heard) == Letter::Exit {
        Some(outward(i, kind))
    } else {
        None
    }
}
