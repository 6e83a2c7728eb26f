//! The watch is quiet on the model's runs, sees every promise at work there, and fires on hand-broken histories.

mod common;
use common::{history, plan_p, plan_three, roll_of};
use model::gen;
use model::watch::{follow, Seen};
use model::{Base, Device, Down, Letter, Place, Plan, Record, Watch, Yard};

#[test]
fn quiet_on_generated_runs() {
    let mut all = Seen::default();
    for seed in 0..20_000 {
        let case = gen::watch_case(seed);
        match follow(&case.plan, &case.roll) {
            Ok(seen) => all.add(&seen),
            Err(breach) => panic!("seed {seed}: {breach}"),
        }
    }
    println!("{all:?}");
    let exercised = [
        all.stays_ended,
        all.stays_full,
        all.pairs_entered,
        all.pairs_entered_tight,
        all.pairs_left,
        all.pairs_left_tight,
        all.base_returns,
        all.base_full,
        all.blades_on_time,
        all.disturbed,
        all.base_home,
    ];
    assert!(exercised.iter().all(|&count| count >= 1_000), "{exercised:?}");
}

#[test]
fn quiet_on_large_plans() {
    let rng = &mut gen::Rng::new(11);
    let mut all = Seen::default();
    for _ in 0..30 {
        let plan = gen::plans::large(rng);
        let roll = gen::rolls::valid(rng, &plan, 100_000);
        all.add(&follow(&plan, &roll).unwrap());
    }
    println!("{all:?}");
    assert!(all.base_returns > 0);
}

const STILL: Record = Record { command: 0, flags: 1, willing: 1, lost: 0 };

/// Feeds yards that no run has; the answer is the first breach.
fn feed(plan: &Plan, yards: &[Yard]) -> Result<(), String> {
    let mut watch = Watch::new(plan);
    let mut before = Yard::FRESH;
    for (k, after) in yards.iter().enumerate() {
        watch.tick(k + 1, &before, STILL, after, Down::None)?;
        before = *after;
    }
    Ok(())
}

fn fires(plan: &Plan, yards: &[Yard], promise: &str, tick: usize) {
    let breach = feed(plan, yards).expect_err("the watch must fire");
    assert!(breach.starts_with(promise) && breach.ends_with(&format!("tick {tick}")), "{breach}");
}

/// The yards of an undisturbed round of plan P.
fn round() -> Vec<Yard> {
    history(&plan_p(), &roll_of(9)).into_iter().map(|(_, yard, _)| yard).collect()
}

fn put(yard: &mut Yard, i: usize, place: Place) {
    yard.devices[i - 1] = Device { clock: 0, place, letter: Letter::None };
}

#[test]
fn fed_with_a_true_round_it_is_quiet() {
    assert_eq!(feed(&plan_p(), &round()), Ok(()));
}

/// Device 1 stays in Running: R + X = 9 tick ends are allowed, the tenth is not.
#[test]
fn promise_1_fires() {
    let mut engaged = Yard { base: Base::Lease(2), ..Yard::FRESH };
    put(&mut engaged, 1, Place::Running);
    assert_eq!(feed(&plan_p(), &[engaged; 9]), Ok(()));
    fires(&plan_p(), &[engaged; 10], "promise 1", 10);
}

/// Device 2 runs at tick 5 of the round, just in time; one tick sooner is too soon, and so is one at tick 1.
#[test]
fn promise_2_fires() {
    let mut yards = round();
    put(&mut yards[3], 2, Place::Running);
    fires(&plan_p(), &yards, "promise 2", 4);
    let mut alone = Yard { base: Base::Lease(2), ..Yard::FRESH };
    put(&mut alone, 1, Place::Running);
    put(&mut alone, 2, Place::Running);
    fires(&plan_p(), &[alone], "promise 2", 1);
    let mut gap = round();
    put(&mut gap[2], 1, Place::Exiting2);
    fires(&plan_p(), &gap, "promise 2", 5);
}

/// Device 2 is engaged up to tick 7; device 1 must be at 8 and 9 (S + 1 = 2), and may be home at 10.
#[test]
fn promise_3_fires() {
    for tick in [8, 9] {
        let mut yards = round();
        put(&mut yards[tick - 1], 1, Place::Exiting2);
        fires(&plan_p(), &yards, "promise 3", tick);
    }
}

/// LS = 10 tick ends away are allowed, the eleventh is not.
#[test]
fn promise_4_fires() {
    let away = Yard { base: Base::Cancel(1), ..Yard::FRESH };
    assert_eq!(feed(&plan_p(), &[away; 10]), Ok(()));
    fires(&plan_p(), &[away; 11], "promise 4", 11);
}

#[test]
fn promise_6_fires() {
    for place in [Place::Entering, Place::Running, Place::Exiting1, Place::Exiting2] {
        let mut yard = Yard::FRESH;
        put(&mut yard, 1, place);
        fires(&plan_p(), &[Yard::FRESH, yard], "promise 6", 2);
    }
    let mut asking = Yard::FRESH;
    put(&mut asking, 2, Place::Requesting);
    assert_eq!(feed(&plan_p(), &[asking]), Ok(()));
}

/// A history of records, yards and letters, some of them changed.
fn follow_broken(plan: &Plan, roll: &[u8], change: impl Fn(usize, &mut Yard)) -> Result<Seen, String> {
    let mut watch = Watch::new(plan);
    let mut before = Yard::FRESH;
    for (k, (record, yard, down)) in history(plan, roll).into_iter().enumerate() {
        let mut after = yard;
        change(k + 1, &mut after);
        watch.tick(k + 1, &before, record, &after, down)?;
        before = after;
    }
    Ok(watch.seen)
}

/// The blade of plan P starts at tick 5: not at 4, and no later.
#[test]
fn promise_5_fires() {
    let roll = roll_of(9);
    let seen = follow_broken(&plan_p(), &roll, |_, _| {}).unwrap();
    assert_eq!((seen.rested_requests, seen.blades_on_time), (1, 1));
    let late = follow_broken(&plan_p(), &roll, |tick, yard| {
        if tick == 5 {
            put(yard, 2, Place::Entering);
        }
    });
    assert!(late.unwrap_err().starts_with("promise 5: 4 ticks"));
    let idle = follow_broken(&plan_p(), &roll, |_, yard| *yard = Yard::FRESH);
    assert!(idle.unwrap_err().starts_with("promise 5"));
}

/// Too soon, where promise 2 is kept: device 3 of a longer chain runs in a tick between.
#[test]
fn promise_5_fires_too_soon() {
    let plan = plan_three();
    let mut roll = [0, 1, 3, 0].repeat(30);
    roll[4 * 2] = 1;
    let started = |tick: usize| {
        move |now: usize, yard: &mut Yard| {
            if now == tick {
                put(yard, 3, Place::Running);
            }
        }
    };
    assert_eq!(follow_broken(&plan, &roll, |_, _| {}).unwrap().blades_on_time, 1);
    // The request is at tick 3, device 3 is due at 3 + 2 + 9 = 14; device 2 runs from 9 on, for G + 3 = 5 tick ends
    // at 13.
    assert_eq!(follow_broken(&plan, &roll, started(14)).unwrap().blades_on_time, 1);
    assert!(follow_broken(&plan, &roll, started(13)).unwrap_err().starts_with("promise 5: 10 ticks"));
}

/// What takes the premise of promise 5 away, and what does not: a loss bit without a letter is harmless.
#[test]
fn promise_5_premise() {
    let disturbed = |tick: usize, byte: usize, value: u8| {
        let mut roll = roll_of(9);
        roll[4 * (tick - 1) + byte] = value;
        let seen = model::watch::follow(&plan_p(), &roll).unwrap();
        (seen.rested_requests, seen.blades_on_time, seen.disturbed)
    };
    assert_eq!(disturbed(1, 3, 2), (1, 0, 1), "Request lost");
    assert_eq!(disturbed(1, 3, 1), (1, 1, 0), "device 1 has no letter yet");
    assert_eq!(disturbed(2, 3, 1), (1, 0, 1), "Approve lost");
    assert_eq!(disturbed(1, 1, 3), (1, 0, 1), "LeaseReq lost");
    assert_eq!(disturbed(3, 1, 3), (1, 1, 0), "no down letter to lose");
    assert_eq!(disturbed(1, 2, 0), (1, 0, 1), "unwilling when asked");
    assert_eq!(disturbed(3, 2, 0), (1, 1, 0), "unwilling when not asked");
    assert_eq!(disturbed(5, 1, 0), (1, 0, 1), "approval fails in the tick of the start");
    assert_eq!(disturbed(4, 0, 2), (1, 0, 1), "cancel");
    assert_eq!(disturbed(4, 0, 1), (1, 1, 0), "another request");
}
