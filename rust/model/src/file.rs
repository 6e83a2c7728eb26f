//! The plan file reader, and the finder of refused bytes.

use crate::bytes::{plan_of, u16_at};
use crate::check::check;
use crate::types::{Plan, Verdict};
use crate::yard::roll_verdict;

const TRAILER: usize = 10;

/// What the last 10 bytes say.
struct Trailer {
    body_length: usize,
    version: u16,
    distance: usize,
    mark: [u8; 2],
}

/// The trailer of a file of at least 10 bytes.
fn trailer(file: &[u8]) -> Trailer {
    let last = &file[file.len() - TRAILER..];
    Trailer {
        body_length: u16_at(last, 0) as usize,
        version: u16_at(last, 2),
        distance: u32::from_le_bytes([last[4], last[5], last[6], last[7]]) as usize,
        mark: [last[8], last[9]],
    }
}

/// The n of "8 + 12 × n for n in 2..8".
fn devices_of(body_length: usize) -> Option<usize> {
    (2..=8).find(|n| body_length == 8 + 12 * n)
}

/// The body, a part of the file, or the number of the refusal 14 to 19.
fn body(file: &[u8]) -> Result<&[u8], u8> {
    if file.len() < 42 || file.len() > 65_536 {
        return Err(14);
    }
    let trailer = trailer(file);
    if trailer.mark != [0x59, 0x50] {
        return Err(15);
    }
    if trailer.version != 1 {
        return Err(16);
    }
    let n = devices_of(trailer.body_length).ok_or(17)?;
    if trailer.distance < trailer.body_length + TRAILER || trailer.distance > file.len() {
        return Err(18);
    }
    let start = file.len() - trailer.distance;
    let body = &file[start..start + trailer.body_length];
    if u16_at(body, 0) as usize != n {
        return Err(19);
    }
    Ok(body)
}

/// "Then 2 to 9 as above. A refused file gives an all-zero plan."
pub fn read(file: &[u8]) -> (Verdict, Plan) {
    let body = match body(file) {
        Ok(body) => body,
        Err(number) => return (Verdict::refused(number, 0), Plan::default()),
    };
    let plan = plan_of(body);
    let verdict = check(&plan);
    if verdict.accepted() {
        (verdict, plan)
    } else {
        (verdict, Plan::default())
    }
}

/// A part of the lent bytes: of the roll or of the file, `length` bytes from `start`.
#[derive(Clone, Copy, PartialEq, Eq, Debug)]
pub struct Piece {
    pub in_roll: bool,
    pub start: usize,
    pub length: usize,
}

pub fn find(file: &[u8], roll: &[u8]) -> Piece {
    let (verdict, plan) = read(file);
    if verdict.accepted() {
        return find_in_roll(&plan, roll);
    }
    match body(file) {
        Ok(body) => Piece { in_roll: false, start: file.len() - trailer(file).distance, length: body.len() },
        Err(_) => {
            let length = file.len().min(TRAILER);
            Piece { in_roll: false, start: file.len() - length, length }
        }
    }
}

/// "The roll is looked at only after the plan has been taken." There is no cap here: all that was lent is looked at.
fn find_in_roll(plan: &Plan, roll: &[u8]) -> Piece {
    let verdict = roll_verdict(plan, roll);
    let (start, length) = match verdict.number {
        12 => (roll.len() - roll.len() % 4, roll.len() % 4),
        10 => (4 * (verdict.index - 1), 4),
        _ => (roll.len(), 0),
    };
    Piece { in_roll: true, start, length }
}
