//! Single sentences of "One tick" and "Run", each on a yard made by hand.

mod common;
use common::{but, history, lines, plan_p, plan_three, roll_of, verdict};
use model::{tick, Base, Device, Down, Letter, Place, Plan, Record, Verdict, Yard};

fn device(place: Place, clock: u16) -> Device {
    Device { clock, place, letter: Letter::None }
}

fn record(command: u8, flags: u8) -> Record {
    Record { command, flags, willing: 1, lost: 0 }
}

/// A yard away from Fall-Back, with its devices from 1 on.
fn yard(base: Base, lease: u32, devices: &[Device]) -> Yard {
    let mut yard = Yard { base, lease, ..Yard::FRESH };
    yard.devices[..devices.len()].copy_from_slice(devices);
    yard
}

fn step(plan: &Plan, yard: &Yard, record: Record) -> (Yard, Down) {
    let (verdict, after, down) = tick(plan, yard, record);
    assert_eq!(verdict, Verdict::ACCEPTED);
    (after, down)
}

/// "Only if nothing was due for it, the initializer heeds the command."
#[test]
fn due_time_beats_the_command() {
    let mut roll = roll_of(4);
    roll[4 * 4] = 2;
    assert_eq!(lines(&plan_p(), &roll)[4], "5 L2 R R -");
}

/// "below clock F it ignores the letter": the wait then ends Lease 1.
#[test]
fn unrested_participant_ignores_the_letter() {
    let plan = but(plan_p(), |p| p.slots[0].f = 3);
    assert_eq!(lines(&plan, &roll_of(1)), ["1 L1 F Q Q1", "2 C1 F Q C1"]);
}

/// "else stays with clock 0 and letter Deny"; heard in the next tick, "or Fall-Back when i = 1".
#[test]
fn deny_rests_anew() {
    let plan = but(plan_p(), |p| p.slots[0].f = 2);
    let all = history(&plan, &[0, 1, 1, 0, 1, 1, 0, 0, 0, 1, 1, 0]);
    assert_eq!(all[1].1.device(1), Device { clock: 0, place: Place::FallBack, letter: Letter::Deny });
    assert_eq!(all[2].1.device(1), device(Place::FallBack, 1));
    assert_eq!((all[2].1.base, all[2].2), (Base::FallBack, Down::None));
}

/// Deny from 2: "Cancel i-1 and send it".
#[test]
fn deny_cancels_the_one_before() {
    let plan = plan_three();
    let denies = Device { clock: 0, place: Place::FallBack, letter: Letter::Deny };
    let before = yard(Base::Lease(2), 1, &[device(Place::Entering, 0), denies, device(Place::Requesting, 1)]);
    let (after, down) = step(&plan, &before, record(0, 1));
    assert_eq!((after.base, down), (Base::Cancel(1), Down::Cancel(1)));
    assert_eq!(after.device(1), device(Place::Exiting2, 0));
}

/// "Cancel i or Abort i: Exit from i": no other device's Exit counts.
#[test]
fn only_exit_from_i_counts() {
    let plan = plan_three();
    for base in [Base::Cancel(2), Base::Abort(2), Base::Lease(3)] {
        let before =
            yard(base, 20, &[device(Place::Exiting1, 5), device(Place::Running, 3), device(Place::Running, 1)]);
        let (after, down) = step(&plan, &before, record(0, 1));
        assert_eq!((after.base, down), (base, Down::None));
        assert_eq!(after.device(1), device(Place::FallBack, 0));
    }
}

/// "the same kind at i-1, sent".
#[test]
fn abort_goes_outward_as_abort() {
    let before = yard(Base::Abort(2), 5, &[device(Place::Running, 3), device(Place::Exiting1, 0)]);
    let (after, down) = step(&plan_p(), &before, record(0, 1));
    assert_eq!((after.base, down), (Base::Abort(1), Down::Abort(1)));
    assert_eq!(after.device(1), device(Place::Exiting1, 0));
}

/// Lease N: Exit comes before failing approval, which comes before Cancel.
#[test]
fn order_in_the_last_lease() {
    let exits = yard(Base::Lease(2), 5, &[device(Place::Running, 3), device(Place::Exiting1, 0)]);
    assert_eq!(step(&plan_p(), &exits, record(0, 0)).1, Down::Cancel(1));
    let runs = yard(Base::Lease(2), 5, &[device(Place::Running, 3), device(Place::Running, 0)]);
    assert_eq!(step(&plan_p(), &runs, record(2, 0)).1, Down::Abort(2));
    assert_eq!(step(&plan_p(), &runs, record(2, 1)).1, Down::Cancel(2));
}

/// Lease i, i < N: failing approval, then Cancel, then Approve.
#[test]
fn order_in_a_lease() {
    let approves = Device { clock: 0, place: Place::Entering, letter: Letter::Approve };
    let before = yard(Base::Lease(1), 0, &[approves, device(Place::Requesting, 0)]);
    assert_eq!(step(&plan_p(), &before, record(2, 0)).1, Down::Abort(1));
    assert_eq!(step(&plan_p(), &before, record(2, 1)).1, Down::Cancel(1));
    assert_eq!(step(&plan_p(), &before, record(0, 1)).1, Down::Grant(2));
}

/// "lease clock at LS: to Fall-Back", before approval and letters, and with nothing sent.
#[test]
fn lease_end_comes_first() {
    for base in [Base::Lease(2), Base::Cancel(2), Base::Abort(2)] {
        let before = yard(base, 9, &[device(Place::Running, 3), device(Place::Exiting1, 0)]);
        let (after, down) = step(&plan_p(), &before, record(0, 0));
        assert_eq!((after.base, after.clock, after.lease, down), (Base::FallBack, 0, 0, Down::None));
    }
}

/// Fall-Back takes a Request only with its clock at B and approval.
#[test]
fn base_rests_and_asks_for_approval() {
    let plan = but(plan_p(), |p| p.b = 2);
    assert_eq!(lines(&plan, &roll_of(0)), ["1 F F Q -"]);
    assert_eq!(lines(&plan, &[0, 1, 1, 0, 1, 1, 1, 0])[1], "2 L1 E Q Q1");
    assert_eq!(lines(&plan, &[0, 1, 1, 0, 1, 0, 1, 0])[1], "2 F F Q -");
}

/// "Cancel: Requesting to Fall-Back, Entering to Exiting 2, Running to Exiting 1, each with letter Cancel."
#[test]
fn commands_of_the_initializer() {
    let moved = |from: Place, command: u8| {
        let before = yard(Base::Cancel(1), 3, &[device(Place::Running, 3), device(from, 0)]);
        let plan = but(plan_p(), |p| (p.slots[1].f, p.slots[1].x, p.slots[0].r) = (2, 2, 8));
        step(&plan, &before, record(command, 1)).0.device(2).place
    };
    assert_eq!(moved(Place::Requesting, 2), Place::FallBack);
    assert_eq!(moved(Place::Entering, 2), Place::Exiting2);
    assert_eq!(moved(Place::Running, 2), Place::Exiting1);
    assert_eq!(moved(Place::Exiting1, 2), Place::Exiting1);
    assert_eq!(moved(Place::FallBack, 2), Place::FallBack);
    assert_eq!(moved(Place::FallBack, 1), Place::FallBack, "below clock F");
    assert_eq!(moved(Place::Requesting, 1), Place::Requesting);
}

/// Plan, state, length, record, buffer: each fault in turn is named while the later ones stand.
#[test]
fn run_refuses_in_order() {
    let bad_plan = but(plan_p(), |p| p.w = 0);
    let bad_yard = Yard { lease: 1, ..Yard::FRESH };
    let roll = [0, 1, 1, 0, 0, 1, 2, 0, 9];
    let number = |plan: &Plan, yard: &Yard, roll: &[u8], lent: usize| {
        let mut engaged = vec![7; lent];
        let (verdict, after, ticks) = model::run(plan, yard, roll, 1, &mut engaged);
        assert!(verdict.accepted() || (after == *yard && ticks == 0 && engaged == vec![7; lent]));
        verdict
    };
    assert_eq!(number(&bad_plan, &bad_yard, &roll, 0), verdict(2, 0));
    assert_eq!(number(&plan_p(), &bad_yard, &roll, 0), verdict(11, 0));
    assert_eq!(number(&plan_p(), &Yard::FRESH, &roll, 0), verdict(12, 0));
    assert_eq!(number(&plan_p(), &Yard::FRESH, &roll[..8], 0), verdict(10, 2), "beyond the budget too");
    assert_eq!(number(&plan_p(), &Yard::FRESH, &roll[..4], 0), verdict(13, 0));
    assert_eq!(number(&plan_p(), &Yard::FRESH, &roll[..4], 1), Verdict::ACCEPTED);
}

/// Lines come before indices: 2 at device 8 before 3; and 3 names the slot.
#[test]
fn lines_before_indices() {
    let plan = but(plan_p(), |p| (p.slots[1].s, p.slots[1].x) = (1, 0));
    assert_eq!(model::check(&plan), verdict(2, 2));
    assert_eq!(model::check(&but(plan_p(), |p| p.slots[7].s = 1)), verdict(3, 8));
    assert_eq!(model::check(&but(plan_p(), |p| (p.w, p.slots[7].s) = (5, 1))), verdict(3, 8));
}
