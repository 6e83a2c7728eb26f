//! Nanoseconds a call and a tick, clear and plain: `cargo run --release --example speed`.

use model::gen::{files, plans, rolls, Rng};
use model::{listing, plain, Plan, Slot, Yard};
use std::hint::black_box;
use std::time::Instant;

/// The best of a few rounds, in nanoseconds for one of `count` things done a round.
fn best(name: &str, count: usize, mut round: impl FnMut()) {
    let mut least = f64::MAX;
    for _ in 0..9 {
        let start = Instant::now();
        round();
        least = least.min(start.elapsed().as_nanos() as f64 / count as f64);
    }
    println!("{name:36} {least:8.2} ns");
}

fn runs(name: &str, plan: &Plan, roll: &[u8]) {
    let ticks = roll.len() / 4;
    let mut engaged = vec![0; ticks];
    let mut text = vec![0; 64 * (ticks + 1)];
    best(&format!("{name}: run, a tick"), ticks, || {
        black_box(model::run(plan, &Yard::FRESH, black_box(roll), ticks, &mut engaged));
    });
    best(&format!("{name}: plain::run, a tick"), ticks, || {
        let mut yard = Yard::FRESH;
        black_box(plain::run(plan, &mut yard, black_box(roll), ticks, &mut engaged));
    });
    best(&format!("{name}: list, a tick"), ticks, || {
        black_box(listing::list(plan, &Yard::FRESH, black_box(roll), 0, &mut text));
    });
    best(&format!("{name}: plain::list, a tick"), ticks, || {
        let mut yard = Yard::FRESH;
        black_box(plain::list(plan, &mut yard, black_box(roll), 0, &mut text));
    });
    best(&format!("{name}: watched run, a tick"), ticks, || {
        black_box(model::watch::follow(plan, black_box(roll))).expect("the promises hold");
    });
}

const CALLS: usize = 10_000;

fn calls<T>(name: &str, call: impl Fn() -> T) {
    best(name, CALLS, || {
        for _ in 0..CALLS {
            black_box(call());
        }
    });
}

fn on(name: &str, plan: &Plan) {
    let rng = &mut Rng::new(1);
    runs(&format!("{name} busy"), plan, &rolls::busy(rng, plan, 100_000));
    runs(&format!("{name} undisturbed"), plan, &rolls::undisturbed(rng, plan, 100_000));
    let file = files::file_of(plan, b"notes", b"notes");
    calls(&format!("{name} check"), || model::check(black_box(plan)));
    calls(&format!("{name} plain::check"), || plain::check(black_box(plan)));
    calls(&format!("{name} read"), || model::read(black_box(&file)));
    calls(&format!("{name} plain::read"), || plain::read(black_box(&file)));
    calls(&format!("{name} write"), || model::write(black_box(plan), black_box(&mut [0; 114])));
    calls(&format!("{name} plain::write"), || plain::write(black_box(plan), black_box(&mut [0; 114])));
}

/// The laser settings of document 000, in tenths.
fn laser() -> Plan {
    let mut plan = Plan { n: 2, w: 30, b: 130, q: 50, ..Plan::default() };
    plan.slots[0] = Slot { f: 1, e: 30, r: 350, x: 60, g: 30, s: 15 };
    plan.slots[1] = Slot { f: 1, e: 100, r: 200, x: 15, g: 0, s: 0 };
    plan
}

fn main() {
    on("laser", &laser());
    for n in [2, 8] {
        let rng = &mut Rng::new(1);
        let small = std::iter::repeat_with(|| plans::lively(rng)).find(|plan| plan.n == n);
        on(&format!("small, N {n}"), &small.expect("one comes in time"));
    }
}
