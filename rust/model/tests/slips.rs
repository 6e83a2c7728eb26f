//! "Slips that are easy to make" of document 01: for each a case whose answer the slip would change.

mod common;
use common::{but, history, lines, plan_p, plan_three, roll_of, verdict};
use model::{check, Base, Place, Verdict, Yard};

/// "Checking only the first pair of the list."
#[test]
fn second_pair_is_checked() {
    let plan = plan_three();
    assert_eq!(check(&plan), Verdict::ACCEPTED);
    assert_eq!(check(&but(plan, |p| p.slots[1].g = 4)), verdict(7, 2));
    assert_eq!(check(&but(plan, |p| p.slots[1].r = 13)), verdict(8, 2));
    assert_eq!(check(&but(plan, |p| p.slots[1].r = 14)), Verdict::ACCEPTED);
    assert_eq!(check(&but(plan, |p| p.slots[1].s = 4)), verdict(9, 2));
    assert_eq!(check(&but(plan, |p| p.slots[1].s = 3)), Verdict::ACCEPTED);
}

/// "Taking c4 as strict." At i = 1 it is always met just so; with X2 = 4 also at i = 2, and c6 is what refuses.
#[test]
fn c4_is_not_strict() {
    assert_eq!(check(&plan_p()), Verdict::ACCEPTED);
    assert_eq!(check(&but(plan_p(), |p| p.slots[1].x = 4)), verdict(8, 1));
    assert_eq!(check(&but(plan_p(), |p| p.slots[1].x = 5)), verdict(6, 2));
}

/// "Once i+1 is leased, cancelling device i on a timer before Exit of i+1 is heard." With the Exit lost, device 1
/// goes on to the end of its own lease and no Cancel goes down.
#[test]
fn outer_device_waits_for_exit() {
    let mut roll = roll_of(10);
    roll[4 * 7 + 3] = 2;
    let got = lines(&plan_p(), &roll);
    assert!(got[2..].iter().all(|line| line.ends_with(" -")));
    assert_eq!(got[10], "11 F F F -");
}

/// The same in Cancel i: with Exit of device 2 lost, Cancel 2 stays until the lease ends.
#[test]
fn cancel_waits_for_exit() {
    let plan = plan_three();
    let mut roll = [0, 1, 3, 0].repeat(60);
    roll[4 * 2] = 1;
    roll[4 * 10] = 2;
    for k in 11..60 {
        roll[4 * k + 3] = 2;
    }
    let all = history(&plan, &roll);
    let bases: Vec<Base> = all.iter().map(|(_, yard, _)| yard.base).collect();
    // The request is at tick 3, the cancel at tick 11; device 3 exits for X = 2 ticks. Device 2's own exit is over
    // long before tick 51, when the lease clock is at LS = 48.
    assert_eq!(bases[2..5], [1, 2, 3].map(Base::Lease));
    assert_eq!(bases[9..13], [Base::Lease(3), Base::Cancel(3), Base::Cancel(3), Base::Cancel(2)]);
    assert!(bases[12..50].iter().all(|base| *base == Base::Cancel(2)));
    assert_eq!(all[30].1.device(1).place, Place::Running);
    assert_eq!(bases[50], Base::FallBack);
}

/// "Counting Exiting 2 as engaged."
#[test]
fn exiting_2_is_not_engaged() {
    let plan = but(plan_p(), |p| p.slots[1].e = 4);
    let plan = but(plan, |p| p.slots[0].r = 9);
    let mut roll = roll_of(9);
    roll[4 * 2] = 2;
    let all = history(&plan, &roll);
    assert_eq!(all[2].1.device(2).place, Place::Exiting2);
    let mut engaged = [0; 10];
    model::run(&plan, &Yard::FRESH, &roll, 10, &mut engaged);
    assert!(engaged.iter().all(|byte| byte & 2 == 0));
    assert_eq!(engaged[2], 1);
}

/// "Letting the wait W beat an Approve in the same tick." With W = 1 the two always meet.
#[test]
fn approve_beats_the_wait() {
    let all = history(&plan_p(), &roll_of(1));
    assert_eq!(all[1].1.base, Base::Lease(2));
}

/// "Restarting the lease clock at each Lease i." Started at tick 1, it is at LS = 10 in tick 11.
#[test]
fn lease_clock_runs_through() {
    let mut roll = roll_of(10);
    roll[4 * 7 + 3] = 2;
    let all = history(&plan_p(), &roll);
    assert_eq!(all[1].1.lease, 1);
    assert_eq!(all[9].1.base, Base::Lease(2));
    assert_eq!(all[10].1.base, Base::FallBack);
}

/// A lost letter is gone: device 2's Request is not heard later, and its waiting ends at Q.
#[test]
fn lost_letters_are_gone() {
    let mut roll = roll_of(4);
    roll[3] = 2;
    assert_eq!(lines(&plan_p(), &roll), ["1 F F Q -", "2 F F Q -", "3 F F Q -", "4 F F F -", "5 F F F -"]);
}
