//! The words of document 01 as types. Devices count from 1, as in the specification; `slot(i)` and `device(i)` take
//! that i.

pub const SLOTS: usize = 8;
/// "All times are whole ticks, 1 to 36,000."
pub const LONGEST: u16 = 36_000;

/// The times of one device: rest, enter, run, exit, and the spacings of its pair with the next.
#[derive(Clone, Copy, PartialEq, Eq, Debug, Default)]
pub struct Slot {
    pub f: u16,
    pub e: u16,
    pub r: u16,
    pub x: u16,
    pub g: u16,
    pub s: u16,
}

impl Slot {
    /// E + R + X: the longest that a device is away from Fall-Back once it has been leased.
    pub fn span(&self) -> usize {
        self.e as usize + self.r as usize + self.x as usize
    }
}

#[derive(Clone, Copy, PartialEq, Eq, Debug, Default)]
pub struct Plan {
    pub n: u16,
    pub w: u16,
    pub b: u16,
    pub q: u16,
    pub slots: [Slot; SLOTS],
}

impl Plan {
    /// The slot of device i; all zero for an i that has none.
    pub fn slot(&self, i: usize) -> Slot {
        self.slots.get(i.wrapping_sub(1)).copied().unwrap_or_default()
    }

    /// "LS = E1 + R1 + X1."
    pub fn ls(&self) -> usize {
        self.slots[0].span()
    }

    /// N, held to the eight slots, so that no loop over devices leaves them.
    pub fn devices(&self) -> usize {
        (self.n as usize).min(SLOTS)
    }
}

/// Where the supervisor stands.
#[derive(Clone, Copy, PartialEq, Eq, Debug)]
pub enum Base {
    FallBack,
    Lease(u8),
    Cancel(u8),
    Abort(u8),
}

#[derive(Clone, Copy, PartialEq, Eq, Debug)]
pub enum Place {
    FallBack,
    Requesting,
    Entering,
    Running,
    Exiting1,
    Exiting2,
}

#[derive(Clone, Copy, PartialEq, Eq, Debug)]
pub enum Letter {
    None,
    Request,
    Cancel,
    Approve,
    Deny,
    Exit,
}

/// The letter that the supervisor sends down, with the device that it is for.
#[derive(Clone, Copy, PartialEq, Eq, Debug)]
pub enum Down {
    None,
    LeaseReq(u8),
    Grant(u8),
    Cancel(u8),
    Abort(u8),
}

#[derive(Clone, Copy, PartialEq, Eq, Debug)]
pub struct Device {
    pub clock: u16,
    pub place: Place,
    pub letter: Letter,
}

impl Device {
    pub const FRESH: Device = Device { clock: 0, place: Place::FallBack, letter: Letter::None };

    /// "A device is engaged in Running and Exiting 1." Exiting 2 does not count.
    pub fn engaged(&self) -> bool {
        matches!(self.place, Place::Running | Place::Exiting1)
    }
}

#[derive(Clone, Copy, PartialEq, Eq, Debug)]
pub struct Yard {
    pub base: Base,
    pub clock: u16,
    pub lease: u32,
    pub devices: [Device; SLOTS],
}

impl Yard {
    /// "Fresh: all in Fall-Back, clocks 0, no letters."
    pub const FRESH: Yard = Yard { base: Base::FallBack, clock: 0, lease: 0, devices: [Device::FRESH; SLOTS] };

    /// Device i; a fresh one for an i that has no slot.
    pub fn device(&self, i: usize) -> Device {
        self.devices.get(i.wrapping_sub(1)).copied().unwrap_or(Device::FRESH)
    }

    /// One bit a device, bit i-1 set when device i of 1..n is engaged.
    pub fn engaged(&self, n: usize) -> u8 {
        (1..=n.min(SLOTS)).filter(|&i| self.device(i).engaged()).fold(0, |bits, i| bits | 1 << (i - 1))
    }
}

/// The input record of one tick.
#[derive(Clone, Copy, PartialEq, Eq, Debug)]
pub struct Record {
    pub command: u8,
    pub flags: u8,
    pub willing: u8,
    pub lost: u8,
}

impl Record {
    pub const REQUEST: u8 = 1;
    pub const CANCEL: u8 = 2;

    pub fn from_bytes(bytes: [u8; 4]) -> Record {
        Record { command: bytes[0], flags: bytes[1], willing: bytes[2], lost: bytes[3] }
    }

    pub fn to_bytes(self) -> [u8; 4] {
        [self.command, self.flags, self.willing, self.lost]
    }

    pub fn approval(&self) -> bool {
        self.flags & 1 != 0
    }

    pub fn down_lost(&self) -> bool {
        self.flags & 2 != 0
    }

    /// Whether participant i of 1..8 is willing.
    pub fn is_willing(&self, i: usize) -> bool {
        self.willing >> (i.wrapping_sub(1) & 7) & 1 != 0
    }

    /// Whether the up letter of device i of 1..8 is lost.
    pub fn is_lost(&self, i: usize) -> bool {
        self.lost >> (i.wrapping_sub(1) & 7) & 1 != 0
    }
}

/// A refusal's number and index; 0 at 0 when not refused.
#[derive(Clone, Copy, PartialEq, Eq, Debug)]
pub struct Verdict {
    pub number: u8,
    pub index: usize,
}

impl Verdict {
    pub const ACCEPTED: Verdict = Verdict { number: 0, index: 0 };

    pub fn refused(number: u8, index: usize) -> Verdict {
        Verdict { number, index }
    }

    pub fn accepted(&self) -> bool {
        self.number == 0
    }
}
