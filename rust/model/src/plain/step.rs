use crate::types::{Base, Device, Down, Letter, Place, Plan, Yard};

/// A plan's times, laid out for the step: for each device the time at which each place is due.
pub struct Times {
    pub n: usize,
    w: u16,
    b: u16,
    pub ls: u32,
    pub due: [[u16; 6]; 8],
}

/// The letters that went up and were heard, a bit a device, and the two that only the initializer writes.
#[derive(Default)]
struct Heard {
    approve: u8,
    deny: u8,
    exit: u8,
    request: bool,
    cancel: bool,
}

impl Heard {
    /// Takes away the letters of the devices whose bits are set.
    fn lose(&mut self, lost: u8, n: usize) {
        self.approve &= !lost;
        self.deny &= !lost;
        self.exit &= !lost;
        if lost >> (n - 1) & 1 != 0 {
            self.request = false;
            self.cancel = false;
        }
    }
}

/// Where each place leads to when it is due, in the order of `Place`; Fall-Back is never due.
const NEXT: [Place; 6] =
    [Place::FallBack, Place::FallBack, Place::Running, Place::Exiting1, Place::FallBack, Place::FallBack];

fn go(device: &mut Device, place: Place) {
    device.place = place;
    device.clock = 0;
}

impl Times {
    pub fn of(plan: &Plan) -> Times {
        let first = &plan.slots[0];
        Times {
            n: plan.n as usize,
            w: plan.w,
            b: plan.b,
            ls: first.e as u32 + first.r as u32 + first.x as u32,
            due: plan.slots.map(|d| [d.f, plan.q, d.e, d.r, d.x, d.x]),
        }
    }

    /// One tick: the letter sent and the engaged bits. Step 4 moves no device into or out of being engaged, so that the
    /// bits are those of step 2.
    #[inline(always)]
    pub fn step(&self, yard: &mut Yard, command: u8, flags: u8, willing: u8, lost: u8) -> (Down, u8) {
        let mut heard = Heard::default();
        let engaged = self.devices(yard, command, &mut heard);
        if lost != 0 {
            heard.lose(lost, self.n);
        }
        let down = self.base(yard, &heard, flags & 1 != 0);
        if flags & 2 == 0 && down != Down::None {
            self.arrive(yard, down, willing);
        }
        (down, engaged)
    }

    /// Clocks, moves and letters up, in one pass.
    #[inline(always)]
    fn devices(&self, yard: &mut Yard, command: u8, heard: &mut Heard) -> u8 {
        let mut engaged = 0;
        let mut moved = false;
        let mut bit = 1u8;
        for (d, due) in yard.devices[..self.n].iter_mut().zip(&self.due[..self.n]) {
            if d.letter != Letter::None {
                match d.letter {
                    Letter::Approve => heard.approve |= bit,
                    _ => heard.deny |= bit,
                }
                d.letter = Letter::None;
            }
            let due = due[d.place as usize];
            // As a u32, so that the load is as wide as the store of the tick before.
            let clock = d.clock as u32 + 1;
            moved = clock >= due as u32 && d.place != Place::FallBack;
            if !moved {
                d.clock = clock.min(due as u32) as u16;
            } else {
                if matches!(d.place, Place::Exiting1 | Place::Exiting2) {
                    heard.exit |= bit;
                }
                go(d, NEXT[d.place as usize]);
            }
            if matches!(d.place, Place::Running | Place::Exiting1) {
                engaged |= bit;
            }
            bit <<= 1;
        }
        // The last device of the pass is the initializer.
        if !moved {
            self.heed(&mut yard.devices[self.n - 1], command, heard);
        }
        engaged
    }

    /// The initializer's command, when nothing was due for it. Its place is looked at first: it changes seldom.
    #[inline(always)]
    fn heed(&self, blade: &mut Device, command: u8, heard: &mut Heard) {
        let to = match blade.place {
            Place::FallBack => {
                if blade.clock == self.due[self.n - 1][0] && command == 1 {
                    go(blade, Place::Requesting);
                    heard.request = true;
                }
                return;
            }
            Place::Requesting => Place::FallBack,
            Place::Entering => Place::Exiting2,
            Place::Running => Place::Exiting1,
            Place::Exiting1 | Place::Exiting2 => return,
        };
        if command == 2 {
            go(blade, to);
            heard.cancel = true;
        }
    }

    /// The supervisor's clocks and its move; answers the letter it sends.
    #[inline(always)]
    fn base(&self, yard: &mut Yard, heard: &Heard, approval: bool) -> Down {
        let n = self.n as u8;
        if yard.base == Base::FallBack {
            let clock = (yard.clock as u32 + 1).min(self.b as u32);
            yard.clock = clock as u16;
            if heard.request && approval && clock == self.b as u32 {
                yard.clock = 0;
                yard.base = Base::Lease(1);
                return Down::LeaseReq(1);
            }
            return Down::None;
        }
        yard.lease += 1;
        if yard.lease == self.ls {
            return home(yard);
        }
        match yard.base {
            Base::FallBack => Down::None,
            Base::Lease(i) if i < n => self.lease(yard, i, heard, approval),
            Base::Lease(_) if heard.exit >> (n - 1) & 1 != 0 => cancel(yard, n - 1),
            Base::Lease(_) if !approval => abort(yard, n),
            Base::Lease(_) if heard.cancel => cancel(yard, n),
            Base::Lease(_) => Down::None,
            Base::Cancel(i) if heard.exit >> (i - 1) & 1 != 0 => cancel(yard, i - 1),
            Base::Abort(i) if heard.exit >> (i - 1) & 1 != 0 => abort(yard, i - 1),
            Base::Cancel(_) | Base::Abort(_) => Down::None,
        }
    }

    fn lease(&self, yard: &mut Yard, i: u8, heard: &Heard, approval: bool) -> Down {
        yard.clock += 1;
        if !approval {
            return abort(yard, i);
        }
        if heard.cancel {
            return cancel(yard, i);
        }
        if heard.approve >> (i - 1) & 1 != 0 {
            yard.clock = 0;
            yard.base = Base::Lease(i + 1);
            return if i as usize + 1 == self.n { Down::Grant(i + 1) } else { Down::LeaseReq(i + 1) };
        }
        if heard.deny >> (i - 1) & 1 != 0 {
            return cancel(yard, i - 1);
        }
        if yard.clock == self.w {
            return cancel(yard, i);
        }
        Down::None
    }

    fn arrive(&self, yard: &mut Yard, down: Down, willing: u8) {
        match down {
            Down::None => {}
            Down::LeaseReq(i) => {
                let k = i as usize - 1;
                let d = &mut yard.devices[k];
                if d.place == Place::FallBack && d.clock == self.due[k][0] {
                    let agrees = willing >> k & 1 != 0;
                    go(d, if agrees { Place::Entering } else { Place::FallBack });
                    d.letter = if agrees { Letter::Approve } else { Letter::Deny };
                }
            }
            Down::Grant(i) => {
                let d = &mut yard.devices[i as usize - 1];
                if d.place == Place::Requesting {
                    go(d, Place::Entering);
                }
            }
            Down::Cancel(i) | Down::Abort(i) => {
                let d = &mut yard.devices[i as usize - 1];
                match d.place {
                    Place::Entering => go(d, Place::Exiting2),
                    Place::Running => go(d, Place::Exiting1),
                    _ => {}
                }
            }
        }
    }
}

fn home(yard: &mut Yard) -> Down {
    yard.base = Base::FallBack;
    yard.clock = 0;
    yard.lease = 0;
    Down::None
}

/// To Cancel i, sent; to Fall-Back for i = 0.
fn cancel(yard: &mut Yard, i: u8) -> Down {
    if i == 0 {
        return home(yard);
    }
    yard.clock = 0;
    yard.base = Base::Cancel(i);
    Down::Cancel(i)
}

fn abort(yard: &mut Yard, i: u8) -> Down {
    if i == 0 {
        return home(yard);
    }
    yard.clock = 0;
    yard.base = Base::Abort(i);
    Down::Abort(i)
}
