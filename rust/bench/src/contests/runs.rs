//! Runs over rolls, and single ticks.

use crate::border;
use crate::contest::{Contest, Unit};
use crate::yards;
use model::bytes::{plan_to_bytes, PLAN, YARD};
use std::hint::black_box;
use wilatkhun::calls;

const FRESH: [u8; YARD] = [0; YARD];

pub fn busy(n: u16) -> Contest {
    let plan = yards::plan(n);
    let roll = yards::busy(&plan);
    let note = format!("{} records: {}", yards::RECORDS, yards::mix(&plan, &roll));
    run(plan_to_bytes(&plan), roll, note)
}

pub fn quiet(n: u16) -> Contest {
    let plan = yards::plan(n);
    run(plan_to_bytes(&plan), yards::quiet(&plan), format!("{} calm records, all in Fall-Back", yards::RECORDS))
}

/// The first so many records of the busy roll, as one run: cost against a roll's length.
pub fn length(n: u16, ticks: usize) -> Contest {
    let plan = yards::plan(n);
    let mut roll = yards::busy(&plan);
    roll.truncate(4 * ticks);
    run(plan_to_bytes(&plan), roll, format!("a run of {ticks} busy ticks from a fresh yard"))
}

/// Each loop is one run over the whole roll from a fresh yard.
fn run(plan: [u8; PLAN], roll: Vec<u8>, note: String) -> Contest {
    let ticks = roll.len() / 4;
    let (library_roll, plain_roll) = (roll.clone(), roll.clone());
    let (mut library_engaged, mut plain_engaged) = (vec![0; ticks], vec![0; ticks]);
    Contest {
        unit: Unit::Nanoseconds("tick"),
        items: ticks,
        library: Box::new(move || {
            let mut yard = FRESH;
            let engaged = black_box(&mut library_engaged[..]);
            black_box(calls::run(black_box(&plan), black_box(&mut yard), black_box(&library_roll), ticks, engaged));
        }),
        plain: Box::new(move || {
            let mut yard = FRESH;
            let engaged = black_box(&mut plain_engaged[..]);
            black_box(border::run(black_box(&plan), black_box(&mut yard), black_box(&plain_roll), ticks, engaged));
        }),
        agree: Box::new(move || {
            let (mut one, mut two, mut here, mut there) = (FRESH, FRESH, vec![1; ticks + 1], vec![1; ticks + 1]);
            let library = calls::run(&plan, &mut one, &roll, ticks, &mut here);
            let (verdict, done) = border::run(&plan, &mut two, &roll, ticks, &mut there);
            (library.verdict.number, library.ticks) == (verdict.number, done) && one == two && here == there
        }),
        note,
    }
}

/// Each loop is 4,096 calls, a busy record each, on a yard that goes on from call to call.
pub fn tick(n: u16) -> Contest {
    let plan = plan_to_bytes(&yards::plan(n));
    let roll = yards::busy(&yards::plan(n));
    let records: Vec<[u8; 4]> = roll.chunks_exact(4).map(|r| [r[0], r[1], r[2], r[3]]).collect();
    let (mut library, mut plain) = (Ticking::new(&records), Ticking::new(&records));
    Contest {
        unit: Unit::Nanoseconds("call"),
        items: Ticking::CALLS,
        library: Box::new(move || {
            library.on(|yard, record| {
                black_box(calls::tick(black_box(&plan), black_box(yard), record));
            })
        }),
        plain: Box::new(move || {
            plain.on(|yard, record| {
                black_box(border::tick(black_box(&plan), black_box(yard), record));
            })
        }),
        agree: Box::new(move || {
            let (mut one, mut two) = (FRESH, FRESH);
            records.iter().all(|record| {
                let number = calls::tick(&plan, &mut one, *record).verdict.number;
                number == border::tick(&plan, &mut two, *record).number && one == two
            })
        }),
        note: "single ticks; the plain side's is a run over one record, and answers no letter".to_string(),
    }
}

/// A yard that goes round the roll in steps.
struct Ticking {
    records: Vec<[u8; 4]>,
    at: usize,
    yard: [u8; YARD],
}

impl Ticking {
    const CALLS: usize = 4_096;

    fn new(records: &[[u8; 4]]) -> Ticking {
        Ticking { records: records.to_vec(), at: 0, yard: FRESH }
    }

    fn on(&mut self, tick: impl Fn(&mut [u8; YARD], [u8; 4])) {
        for record in &self.records[self.at..self.at + Self::CALLS] {
            tick(&mut self.yard, *record);
        }
        self.at = (self.at + Self::CALLS) % self.records.len();
    }
}
