//! The program's text: header, a line a tick, the listing in a lent buffer and the whole of what is printed.

use crate::file::read;
use crate::steps::steps;
use crate::types::{Base, Down, Place, Plan, Verdict, Yard, SLOTS};
use crate::yard::{plan_and_state, records, roll_verdict};

/// A line or header is begun only with this much room left; none is longer.
pub const ROOM: usize = 64;
/// "the first 40,000 bytes of `yard.roll`"
pub const ROLL_CAP: usize = 40_000;

/// "a header (tick, sup, d1 to dN, down)"; empty for n above 8.
pub fn header(n: u16) -> String {
    if n as usize > SLOTS {
        return String::new();
    }
    let devices: String = (1..=n).map(|i| format!(" d{i}")).collect();
    format!("tick sup{devices} down\n")
}

/// The header in a lent buffer from `at` on; answers where it ends, `at` when nothing was written.
pub fn header_at(n: u16, out: &mut [u8], at: usize) -> usize {
    let text = header(n);
    match out.get_mut(at..) {
        Some(rest) if rest.len() >= ROOM => {
            rest[..text.len()].copy_from_slice(text.as_bytes());
            at + text.len()
        }
        _ => at,
    }
}

fn base_field(base: Base) -> String {
    match base {
        Base::FallBack => "F".to_string(),
        Base::Lease(i) => format!("L{i}"),
        Base::Cancel(i) => format!("C{i}"),
        Base::Abort(i) => format!("A{i}"),
    }
}

fn place_field(place: Place) -> char {
    match place {
        Place::FallBack => 'F',
        Place::Requesting => 'Q',
        Place::Entering => 'E',
        Place::Running => 'R',
        Place::Exiting1 => 'X',
        Place::Exiting2 => 'Y',
    }
}

/// "`!` if lost; `-` none": a loss without a letter shows nothing.
fn down_field(down: Down, lost: bool) -> String {
    let mark = if lost { "!" } else { "" };
    match down {
        Down::None => "-".to_string(),
        Down::LeaseReq(i) => format!("Q{i}{mark}"),
        Down::Grant(i) => format!("G{i}{mark}"),
        Down::Cancel(i) => format!("C{i}{mark}"),
        Down::Abort(i) => format!("A{i}{mark}"),
    }
}

/// One line, for the yard after the tick, with its end of line.
pub fn line(tick_number: u64, plan: &Plan, yard: &Yard, down: Down, down_lost: bool) -> String {
    let devices: String = (1..=plan.devices()).map(|i| format!(" {}", place_field(yard.device(i).place))).collect();
    format!("{tick_number} {}{devices} {}\n", base_field(yard.base), down_field(down, down_lost))
}

/// As many ticks of the roll as have room; answers the yard after them, how many they were and the bytes of text.
pub fn list(plan: &Plan, yard: &Yard, roll: &[u8], first: u32, out: &mut [u8]) -> (Verdict, Yard, usize, usize) {
    let mut verdict = plan_and_state(plan, yard);
    if verdict.accepted() {
        verdict = roll_verdict(plan, roll);
    }
    if !verdict.accepted() {
        return (verdict, *yard, 0, 0);
    }
    let (mut now, mut ticks, mut length) = (*yard, 0, 0);
    for record in records(roll) {
        if out.len() - length < ROOM {
            break;
        }
        let (after, down) = steps(plan, &now, record);
        now = after;
        ticks += 1;
        let text = line(first as u64 + ticks as u64, plan, &now, down, record.down_lost());
        out[length..length + text.len()].copy_from_slice(text.as_bytes());
        length += text.len();
    }
    (verdict, now, ticks, length)
}

/// What the program prints for these two files. "A refusal prints only `refused NUMBER INDEX`".
pub fn rehearse(plan_file: &[u8], roll: &[u8]) -> String {
    let roll = &roll[..roll.len().min(ROLL_CAP)];
    let (mut verdict, plan) = read(plan_file);
    if verdict.accepted() {
        verdict = roll_verdict(&plan, roll);
    }
    if !verdict.accepted() {
        return format!("refused {} {}\n", verdict.number, verdict.index);
    }
    let mut text = header(plan.n);
    let mut now = Yard::FRESH;
    for (k, record) in records(roll).enumerate() {
        let (after, down) = steps(&plan, &now, record);
        now = after;
        text += &line(k as u64 + 1, &plan, &now, down, record.down_lost());
    }
    text
}
