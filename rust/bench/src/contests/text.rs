//! The listing of a busy roll.

use crate::border;
use crate::contest::{Contest, Unit};
use crate::yards;
use model::bytes::{plan_to_bytes, YARD};
use std::hint::black_box;
use wilatkhun::calls;

const FRESH: [u8; YARD] = [0; YARD];

/// Each loop lists the whole roll into one buffer; an item is a byte of text.
pub fn list(n: u16) -> Contest {
    let plan = plan_to_bytes(&yards::plan(n));
    let roll = yards::busy(&yards::plan(n));
    let room = 64 * (roll.len() / 4 + 1);
    let (library_roll, plain_roll) = (roll.clone(), roll.clone());
    let (mut library_out, mut plain_out) = (vec![0; room], vec![0; room]);
    let length = calls::list(&plan, &mut FRESH.clone(), &roll, 0, &mut library_out).length;
    Contest {
        unit: Unit::Megabytes,
        items: length,
        library: Box::new(move || {
            let mut yard = FRESH;
            let out = black_box(&mut library_out[..]);
            black_box(calls::list(black_box(&plan), black_box(&mut yard), black_box(&library_roll), 0, out));
        }),
        plain: Box::new(move || {
            let mut yard = FRESH;
            let out = black_box(&mut plain_out[..]);
            black_box(border::list(black_box(&plan), black_box(&mut yard), black_box(&plain_roll), 0, out));
        }),
        agree: Box::new(move || {
            let (mut one, mut two, mut here, mut there) = (FRESH, FRESH, vec![1; room], vec![1; room]);
            let library = calls::list(&plan, &mut one, &roll, 0, &mut here);
            let (verdict, (ticks, length)) = border::list(&plan, &mut two, &roll, 0, &mut there);
            let same = (library.verdict.number, library.ticks, library.length) == (verdict.number, ticks, length);
            same && one == two && here == there
        }),
        note: format!("{} busy ticks, {length} bytes of text", yards::RECORDS),
    }
}
