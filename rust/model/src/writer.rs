//! The plan file's writer: request 01 of document 02, in the bytes that document 01's "The plan file" lays out.

use crate::bytes::plan_to_bytes;
use crate::check::check;
use crate::types::{Plan, Verdict};

/// "body length (2), version (2), distance back from the file's end to the body (4), bytes 59 50 hex". With the body
/// first and the trailer straight after it, that distance is the whole file.
fn trailer(body_length: usize) -> Vec<u8> {
    let mut bytes = (body_length as u16).to_le_bytes().to_vec();
    bytes.extend(1u16.to_le_bytes());
    bytes.extend((body_length as u32 + 10).to_le_bytes());
    bytes.extend([0x59, 0x50]);
    bytes
}

/// "body first, trailer straight after it, no notes"; of the plan's slots the first N.
fn whole(plan: &Plan) -> Vec<u8> {
    let body = &plan_to_bytes(plan)[..8 + 12 * plan.devices()];
    [body, &trailer(body.len())].concat()
}

/// Writes an accepted plan into the front of `file` and answers how long its file is; "bytes past the end stay". "1 to
/// 9 first, then 20 when the buffer is shorter than 18 + 12 × N": nothing is then written, and the length is 0.
pub fn write(plan: &Plan, file: &mut [u8]) -> (Verdict, usize) {
    let verdict = check(plan);
    if !verdict.accepted() {
        return (verdict, 0);
    }
    if file.len() < 18 + 12 * plan.devices() {
        return (Verdict::refused(20, 0), 0);
    }
    let bytes = whole(plan);
    file[..bytes.len()].copy_from_slice(&bytes);
    (verdict, bytes.len())
}
