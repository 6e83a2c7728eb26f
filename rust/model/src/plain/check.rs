use crate::types::{Plan, Slot, Verdict, LONGEST};

fn bad(t: u16) -> bool {
    t == 0 || t > LONGEST
}

fn span(d: &Slot) -> u32 {
    d.e as u32 + d.r as u32 + d.x as u32
}

/// Refused with `number` at the lowest index of 1.. for which `fault` holds.
fn first<T>(number: u8, items: &[T], fault: impl FnMut(&T) -> bool) -> Option<Verdict> {
    items.iter().position(fault).map(|k| Verdict { number, index: k + 1 })
}

/// The verdict on a plan: the table's numbers in order, each with its lowest index.
pub fn check(plan: &Plan) -> Verdict {
    if plan.n < 2 || plan.n > 8 {
        return Verdict { number: 1, index: 0 };
    }
    times(plan).or_else(|| conditions(plan)).unwrap_or(Verdict::ACCEPTED)
}

/// Numbers 2 and 3.
fn times(plan: &Plan) -> Option<Verdict> {
    if bad(plan.w) || bad(plan.b) || bad(plan.q) {
        return Some(Verdict { number: 2, index: 0 });
    }
    let n = plan.n as usize;
    let (devices, above) = plan.slots.split_at(n);
    let (outer, last) = devices.split_at(n - 1);
    let own_bad = |d: &Slot| bad(d.f) || bad(d.e) || bad(d.r) || bad(d.x);
    if let Some(v) = first(2, outer, |d| own_bad(d) || bad(d.g) || bad(d.s)) {
        return Some(v);
    }
    if own_bad(&last[0]) {
        return Some(Verdict { number: 2, index: n });
    }
    if last[0].g != 0 || last[0].s != 0 {
        return Some(Verdict { number: 3, index: n });
    }
    let k = above.iter().position(|d| *d != Slot::default())?;
    Some(Verdict { number: 3, index: n + k + 1 })
}

/// Numbers 4 to 9, over times that number 2 has let pass: no sum leaves a u32.
fn conditions(plan: &Plan) -> Option<Verdict> {
    let n = plan.n as u32;
    let devices = &plan.slots[..plan.n as usize];
    let ls = span(&devices[0]);
    let (w, q) = (plan.w as u32, plan.q as u32);
    if ls <= n * w {
        return Some(Verdict { number: 4, index: 0 });
    }
    if q <= (n - 1) * w || q >= ls {
        return Some(Verdict { number: 5, index: 0 });
    }
    let mut waits = 0;
    let over_lease = |d: &Slot| {
        let over = waits + span(d) > ls;
        waits += w;
        over
    };
    if let Some(v) = first(6, devices, over_lease) {
        return Some(v);
    }
    pairs(7, devices, |o, i| o.e as u32 + o.g as u32 >= i.e as u32)
        .or_else(|| pairs(8, devices, |o, i| o.e as u32 + o.r as u32 <= w + span(i)))
        .or_else(|| pairs(9, devices, |o, _| o.x <= o.s))
}

fn pairs(number: u8, devices: &[Slot], fault: impl Fn(&Slot, &Slot) -> bool) -> Option<Verdict> {
    devices.windows(2).position(|p| fault(&p[0], &p[1])).map(|k| Verdict { number, index: k + 1 })
}
