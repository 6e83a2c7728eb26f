//! A whole listing as text.

use crate::calls::{self, RECORD, ROOM};
use crate::plan::Plan;
use crate::refusal::Refusal;
use crate::yard::Yard;

/// Records that are listed at a time.
const PAGE: usize = 1024;

/// The text of a roll under a plan from a fresh yard: the header, then a line a tick, as the program prints it (without
/// the program's limit of 10,000 ticks). Refused with 1 to 9 for the plan, 12 for the roll's length, 10 for any bad
/// record of the roll; there is then no text at all.
///
/// The time it takes grows with the roll: the first call looks at all of it, so that it is refused as a whole, and each later
/// one only at the records of its page. Ticks are numbered to 4,294,967,295; a longer roll is numbered from 0 again.
pub fn listing(plan: &Plan, roll: &[u8]) -> Result<String, Refusal> {
    let mut yard = Yard::fresh(plan)?;
    let mut page = vec![0; PAGE * ROOM];
    let end = calls::header(plan.n, &mut page, 0);
    let mut text = Vec::from(&page[..end]);
    let mut done = 0;
    let mut piece = roll;
    loop {
        let (ticks, length) = yard.list(plan, piece, done as u32, &mut page)?;
        text.extend(&page[..length]);
        done += ticks;
        let rest = &roll[RECORD * done..];
        if ticks == 0 || rest.is_empty() {
            return Ok(String::from_utf8_lossy(&text).into_owned());
        }
        piece = &rest[..rest.len().min(RECORD * PAGE)];
    }
}
