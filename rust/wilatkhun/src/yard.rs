//! A yard: fresh, ticked, run and looked at.

use crate::calls::{self, YARD};
use crate::plan::Plan;
use crate::refusal::Refusal;

/// Where the base station stands, with the device that it deals with.
#[derive(Clone, Copy, PartialEq, Eq, Hash, Debug)]
pub enum Base {
    FallBack,
    Lease(u8),
    Cancel(u8),
    Abort(u8),
}

/// Where a device stands. It is engaged in Running and Exiting 1.
#[derive(Clone, Copy, PartialEq, Eq, Hash, Debug)]
pub enum Place {
    FallBack,
    Requesting,
    Entering,
    Running,
    Exiting1,
    Exiting2,
}

/// The letter that a device holds for the base.
#[derive(Clone, Copy, PartialEq, Eq, Hash, Debug)]
pub enum Letter {
    Request,
    Cancel,
    Approve,
    Deny,
    Exit,
}

/// The letter that the base sends down, with the device that it is for.
#[derive(Clone, Copy, PartialEq, Eq, Hash, Debug)]
pub enum Down {
    None,
    LeaseReq(u8),
    Grant(u8),
    Cancel(u8),
    Abort(u8),
}

#[derive(Clone, Copy, PartialEq, Eq, Hash, Debug)]
pub struct Device {
    pub place: Place,
    pub clock: u16,
    pub letter: Option<Letter>,
}

/// What happens in one tick. Command 0 none, 1 request, 2 cancel; flags bit 0 approval holds, bit 1 the down letter is
/// lost; bit i-1 of `willing` for participant i, of `lost` for device i's letter. Anything else is refused with 10.
#[derive(Clone, Copy, PartialEq, Eq, Hash, Debug)]
pub struct Record {
    pub command: u8,
    pub flags: u8,
    pub willing: u8,
    pub lost: u8,
}

impl Record {
    /// The four bytes of a roll.
    pub fn to_bytes(self) -> [u8; 4] {
        [self.command, self.flags, self.willing, self.lost]
    }
}

/// The state of a yard between two ticks. It comes from [`Yard::fresh`] and moves only by ticks; a yard belongs to the
/// plan that it was made for, and under another it may be refused with 11.
#[derive(Clone, Copy, PartialEq, Eq, Hash, Debug)]
pub struct Yard {
    bytes: [u8; YARD],
}

impl Yard {
    /// All in Fall-Back, clocks 0, no letters. Refused with 1 to 9 for the plan.
    pub fn fresh(plan: &Plan) -> Result<Yard, Refusal> {
        let mut yard = Yard { bytes: [0; YARD] };
        calls::fresh(&plan.to_bytes(), &mut yard.bytes).taken()?;
        Ok(yard)
    }

    /// A yard that was kept as bytes, laid out as `include/wilatkhun.h` says. It takes all bytes that have a meaning there: a
    /// known kind of base (with device 0 in Fall-Back), known places and known letters, with any clocks and any device of the
    /// base. Others are refused with 11. Whether the state is well formed depends on the plan: the calls that take both judge
    /// it, and refuse it with 11 too.
    pub fn from_bytes(bytes: [u8; YARD]) -> Result<Yard, Refusal> {
        let known = base_of(bytes[0], bytes[1]).is_some() && bytes[8..].chunks_exact(4).all(|d| device_of(d).is_some());
        if known {
            Ok(Yard { bytes })
        } else {
            Err(Refusal { number: 11, index: 0 })
        }
    }

    /// The forty bytes, to be kept.
    pub fn to_bytes(&self) -> [u8; YARD] {
        self.bytes
    }

    /// One tick; answers the letter that the base sent, lost or not. Refused with 1 to 9 for the plan, 11 for a state
    /// that is not well formed under it, 10 at 1 for the record; the yard then stays as it is.
    pub fn tick(&mut self, plan: &Plan, record: Record) -> Result<Down, Refusal> {
        let answer = calls::tick(&plan.to_bytes(), &mut self.bytes, record.to_bytes());
        answer.verdict.taken()?;
        Ok(down_of(answer.down, answer.device))
    }

    /// The smaller of `budget` and the roll's records, four bytes each; answers how many ticks that was. `engaged` gets
    /// a byte a tick, bit i-1 set when device i is engaged at its end. Refused with 1 to 9 for the plan, 11 for the
    /// state, 12 for the roll's length, 10 for any bad record of the whole roll, 13 for too few engaged bytes; yard and
    /// `engaged` then stay as they are.
    pub fn run(&mut self, plan: &Plan, roll: &[u8], budget: usize, engaged: &mut [u8]) -> Result<usize, Refusal> {
        let answer = calls::run(&plan.to_bytes(), &mut self.bytes, roll, budget, engaged);
        answer.verdict.taken()?;
        Ok(answer.ticks)
    }

    /// Lists as many ticks as have room in `out`, numbered from `first` + 1, and moves the yard by them; answers the
    /// ticks and the bytes of text. Refused as [`Yard::run`] is, without 13.
    pub fn list(&mut self, plan: &Plan, roll: &[u8], first: u32, out: &mut [u8]) -> Result<(usize, usize), Refusal> {
        let answer = calls::list(&plan.to_bytes(), &mut self.bytes, roll, first, out);
        answer.verdict.taken()?;
        Ok((answer.ticks, answer.length))
    }

    pub fn base(&self) -> Base {
        base_of(self.bytes[0], self.bytes[1]).unwrap_or(Base::FallBack)
    }

    /// The base's place clock.
    pub fn place_clock(&self) -> u16 {
        u16::from_le_bytes([self.bytes[2], self.bytes[3]])
    }

    pub fn lease_clock(&self) -> u32 {
        u32::from_le_bytes([self.bytes[4], self.bytes[5], self.bytes[6], self.bytes[7]])
    }

    /// Device i of 1 to 8; none for another i. Those above the plan's N are fresh.
    pub fn device(&self, i: usize) -> Option<Device> {
        device_of(self.bytes[8..].chunks_exact(4).nth(i.checked_sub(1)?)?)
    }
}

fn base_of(kind: u8, device: u8) -> Option<Base> {
    match (kind, device) {
        (0, 0) => Some(Base::FallBack),
        (1, i) => Some(Base::Lease(i)),
        (2, i) => Some(Base::Cancel(i)),
        (3, i) => Some(Base::Abort(i)),
        _ => None,
    }
}

fn device_of(four: &[u8]) -> Option<Device> {
    use Place::*;
    let place = *[FallBack, Requesting, Entering, Running, Exiting1, Exiting2].get(four[2] as usize)?;
    let letters = [
        None,
        Some(Letter::Request),
        Some(Letter::Cancel),
        Some(Letter::Approve),
        Some(Letter::Deny),
        Some(Letter::Exit),
    ];
    let letter = *letters.get(four[3] as usize)?;
    Some(Device { place, clock: u16::from_le_bytes([four[0], four[1]]), letter })
}

/// The library answers 0 to 4 and nothing else.
fn down_of(down: u8, device: u8) -> Down {
    match down {
        1 => Down::LeaseReq(device),
        2 => Down::Grant(device),
        3 => Down::Cancel(device),
        4 => Down::Abort(device),
        _ => Down::None,
    }
}
