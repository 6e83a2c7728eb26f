//! A plan, its check and its file.

use crate::calls::{self, PLAN};
use crate::refusal::Refusal;

/// One device's times in ticks: rest, enter, run, exit, and the enter and exit spacing of its pair with the next
/// device. The last device has no spacing (0), and slots above it are all zero.
#[derive(Clone, Copy, PartialEq, Eq, Hash, Debug, Default)]
pub struct Slot {
    pub f: u16,
    pub e: u16,
    pub r: u16,
    pub x: u16,
    pub g: u16,
    pub s: u16,
}

/// A yard's plan: N devices, 1 outermost and N the blade; wait W, base rest B, request limit Q; a slot a device. Any
/// numbers may stand here: [`check`] and every call that takes a plan say whether they make one.
#[derive(Clone, Copy, PartialEq, Eq, Hash, Debug, Default)]
pub struct Plan {
    pub n: u16,
    pub w: u16,
    pub b: u16,
    pub q: u16,
    pub slots: [Slot; 8],
}

impl Plan {
    /// The 104 bytes that the calls take, little-endian.
    pub fn to_bytes(&self) -> [u8; PLAN] {
        let mut bytes = [0; PLAN];
        for (pair, number) in bytes.chunks_exact_mut(2).zip(self.numbers()) {
            pair.copy_from_slice(&number.to_le_bytes());
        }
        bytes
    }

    /// The plan in 104 bytes; any bytes are a plan's, if not one that will be accepted.
    pub fn from_bytes(bytes: &[u8; PLAN]) -> Plan {
        let at = |k: usize| u16::from_le_bytes([bytes[2 * k], bytes[2 * k + 1]]);
        let slot = |k: usize| Slot { f: at(k), e: at(k + 1), r: at(k + 2), x: at(k + 3), g: at(k + 4), s: at(k + 5) };
        Plan { n: at(0), w: at(1), b: at(2), q: at(3), slots: std::array::from_fn(|i| slot(4 + 6 * i)) }
    }

    /// N, W, B, Q and six numbers a slot, in the order of the bytes.
    fn numbers(&self) -> impl Iterator<Item = u16> + '_ {
        let slots = self.slots.iter().flat_map(|d| [d.f, d.e, d.r, d.x, d.g, d.s]);
        [self.n, self.w, self.b, self.q].into_iter().chain(slots)
    }
}

/// Whether the plan is accepted; 1 to 9 with the lowest index when it is not.
pub fn check(plan: &Plan) -> Result<(), Refusal> {
    calls::check(&plan.to_bytes()).taken()
}

/// The plan in a plan file. Refused with 14 to 19 for the file, then with 2 to 9 for the plan.
pub fn read_file(file: &[u8]) -> Result<Plan, Refusal> {
    let mut bytes = [0; PLAN];
    calls::read(file, &mut bytes).taken()?;
    Ok(Plan::from_bytes(&bytes))
}

/// Writes the plan as a plan file without notes into the front of `file` and answers how many bytes that is, 18 + 12 × N;
/// [`calls::FILE`] are enough for any plan, and later bytes keep their value. [`read_file`] of them gives the plan back.
/// Refused with 1 to 9 for the plan, then with 20 for too few bytes; `file` then stays as it is.
pub fn write_file(plan: &Plan, file: &mut [u8]) -> Result<usize, Refusal> {
    let answer = calls::write(&plan.to_bytes(), file);
    answer.verdict.taken()?;
    Ok(answer.length)
}

/// The refused piece of a plan file and a roll, for a crew to look at: the file's last ten bytes for 14 to 19 (all of a
/// shorter file), its body for 2 to 9, the bytes left over for 12, the four bytes of the record for 10. With nothing at
/// fault, the empty piece at the roll's end. The roll is looked at only if the file has a plan.
pub fn find<'a>(file: &'a [u8], roll: &'a [u8]) -> &'a [u8] {
    let piece = calls::find(file, roll);
    let lent = if piece.part == 0 { file } else { roll };
    &lent[piece.start..][..piece.length]
}
