//! The nine calls of `include/wilatkhun.h` over slices, as they are: any bytes of any length may be lent.
//!
//! A call that refuses changes no byte of a lent buffer, and answers 0 ticks, 0 bytes of text or file and no letter.
//! Refusal 27 (a plan of other than 104 bytes, or a yard of other than 40) is tried before all others.

use crate::ffi;
use crate::refusal::Refusal;

/// The bytes of a plan.
pub const PLAN: usize = 104;
/// The bytes of a yard.
pub const YARD: usize = 40;
/// The most bytes that [`write`] writes: 18 + 12 × 8.
pub const FILE: usize = 114;
/// The bytes of a record in a roll.
pub const RECORD: usize = 4;
/// A header or line is begun only with this much room left.
pub const ROOM: usize = 64;

/// A refusal's number, 0 for none, and its index.
#[derive(Clone, Copy, PartialEq, Eq, Debug)]
pub struct Verdict {
    pub number: u8,
    pub index: usize,
}

impl Verdict {
    /// The refusal as an error; `Ok` for number 0.
    pub fn taken(self) -> Result<(), Refusal> {
        match self.number {
            0 => Ok(()),
            number => Err(Refusal { number, index: self.index }),
        }
    }
}

/// The answer of [`tick`]: `down` is the letter that the base sent, lost or not (0 none, 1 LeaseReq, 2 Grant, 3 Cancel,
/// 4 Abort), `device` the one that it is for, 0 for none.
#[derive(Clone, Copy, PartialEq, Eq, Debug)]
pub struct Ticked {
    pub verdict: Verdict,
    pub down: u8,
    pub device: u8,
}

/// The answer of [`run`].
#[derive(Clone, Copy, PartialEq, Eq, Debug)]
pub struct Ran {
    pub verdict: Verdict,
    pub ticks: usize,
}

/// The answer of [`write`]: how many bytes the file has.
#[derive(Clone, Copy, PartialEq, Eq, Debug)]
pub struct Written {
    pub verdict: Verdict,
    pub length: usize,
}

/// The answer of [`find`]: `length` bytes from `start`, of the file for part 0 and of the roll for part 1.
#[derive(Clone, Copy, PartialEq, Eq, Debug)]
pub struct Piece {
    pub part: u8,
    pub start: usize,
    pub length: usize,
}

/// The answer of [`list`]: how many ticks were listed, and in how many bytes of text.
#[derive(Clone, Copy, PartialEq, Eq, Debug)]
pub struct Listed {
    pub verdict: Verdict,
    pub ticks: usize,
    pub length: usize,
}

/// The verdict on a plan's bytes: 27, then 1 to 9.
pub fn check(plan: &[u8]) -> Verdict {
    let (number, index) = ffi::check(plan);
    Verdict { number, index }
}

/// Writes a fresh yard for a plan: all in Fall-Back, clocks 0, no letters. Refused with 27, then 1 to 9.
pub fn fresh(plan: &[u8], yard: &mut [u8]) -> Verdict {
    let (number, index) = ffi::fresh(plan, yard);
    Verdict { number, index }
}

/// One tick of a yard, in place. Refused with 27, 1 to 9, 11, then 10 at 1.
pub fn tick(plan: &[u8], yard: &mut [u8], record: [u8; 4]) -> Ticked {
    let (number, index, down, device) = ffi::tick(plan, yard, record);
    Ticked { verdict: Verdict { number, index }, down, device }
}

/// A run of the smaller of `budget` and the roll's records, in place, with one engaged byte a tick; later bytes keep
/// their value. Refused with 27, 1 to 9, 11, 12, 10 for any record of the whole roll, then 13.
pub fn run(plan: &[u8], yard: &mut [u8], roll: &[u8], budget: usize, engaged: &mut [u8]) -> Ran {
    let (number, index, ticks) = ffi::run(plan, yard, roll, budget, engaged);
    Ran { verdict: Verdict { number, index }, ticks }
}

/// Reads a plan file into a plan's bytes. Refused with 27, 14 to 19, then 2 to 9.
pub fn read(file: &[u8], plan: &mut [u8]) -> Verdict {
    let (number, index) = ffi::read(file, plan);
    Verdict { number, index }
}

/// Writes a plan as a plan file without notes into the front of `file`: 18 + 12 × N bytes, later ones keep their value.
/// [`read`] gives the plan back. Refused with 27, 1 to 9, then 20 with fewer bytes than that.
pub fn write(plan: &[u8], file: &mut [u8]) -> Written {
    let (number, index, length) = ffi::write(plan, file);
    Written { verdict: Verdict { number, index }, length }
}

/// Of a plan file and a roll, the refused piece of whichever is at fault; else the empty piece at the roll's end.
/// Nothing is refused here: any two slices have an answer.
pub fn find(file: &[u8], roll: &[u8]) -> Piece {
    let (part, start, length) = ffi::find(file, roll);
    Piece { part, start, length }
}

/// Writes a listing's first line for `n` devices from `at` on, and answers where it ends: `at`, with nothing written,
/// for `n` above 8 or with fewer than [`ROOM`] bytes from `at` on.
pub fn header(n: u16, out: &mut [u8], at: usize) -> usize {
    ffi::header(n, out, at)
}

/// Writes a listing's lines, numbered from `first` + 1, and moves the yard in place: as many ticks as have room, each
/// begun only with [`ROOM`] bytes left; with fewer bytes lent it does 0 ticks, and a loop over pages must end there. Refused with 27, 1 to 9, 11, 12, then 10 for any record of the whole roll.
pub fn list(plan: &[u8], yard: &mut [u8], roll: &[u8], first: u32, out: &mut [u8]) -> Listed {
    let (number, index, ticks, length) = ffi::list(plan, yard, roll, first, out);
    Listed { verdict: Verdict { number, index }, ticks, length }
}
