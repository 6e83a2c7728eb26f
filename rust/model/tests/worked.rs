//! "Worked yards" of document 01, sentence by sentence.

mod common;
use common::{but, laser, lines, plan_p, roll_of, verdict, CALM};
use model::gen::files::file_of;
use model::listing::rehearse;
use model::{check, Plan, Verdict, Yard};

#[test]
fn verdicts_on_plan_p() {
    let p = plan_p();
    let cases: [(&str, Plan, Verdict); 15] = [
        ("P", p, verdict(0, 0)),
        ("R1 = 6", but(p, |p| p.slots[0].r = 6), verdict(8, 1)),
        ("E2 = 2", but(p, |p| p.slots[1].e = 2), verdict(7, 1)),
        ("X1 = 1", but(p, |p| p.slots[0].x = 1), verdict(9, 1)),
        ("Q = 1", but(p, |p| p.q = 1), verdict(5, 0)),
        ("Q = 10", but(p, |p| p.q = 10), verdict(5, 0)),
        ("Q = 9", but(p, |p| p.q = 9), verdict(0, 0)),
        ("X2 = 5", but(p, |p| p.slots[1].x = 5), verdict(6, 2)),
        ("X2 = 4", but(p, |p| p.slots[1].x = 4), verdict(8, 1)),
        ("W = 5", but(p, |p| p.w = 5), verdict(4, 0)),
        ("W = 4", but(p, |p| p.w = 4), verdict(5, 0)),
        ("G1 = 0", but(p, |p| p.slots[0].g = 0), verdict(2, 1)),
        ("N = 1", but(p, |p| p.n = 1), verdict(1, 0)),
        ("N = 9", but(p, |p| p.n = 9), verdict(1, 0)),
        ("G2 = 1", but(p, |p| p.slots[1].g = 1), verdict(3, 2)),
    ];
    for (name, plan, expected) in cases {
        assert_eq!(check(&plan), expected, "{name}");
        assert_eq!(model::plain::check(&plan), expected, "{name}, plain");
    }
    assert_eq!(p.ls(), 10);
}

#[test]
fn laser_is_accepted() {
    assert_eq!(check(&laser()), Verdict::ACCEPTED);
}

/// Of the pendulum's settings document 01 gives that "wait and request are both 0.1 s", and its exit time; c3 is
/// strict.
#[test]
fn wait_equal_to_request_is_refused() {
    let pendulum = but(laser(), |p| {
        (p.w, p.q) = (1, 1);
        p.slots[1].x = 15;
    });
    assert_eq!(check(&pendulum), verdict(5, 0));
}

#[test]
fn first_listing() {
    let expected = "\
tick sup d1 d2 down
1 L1 E Q Q1
2 L2 R E G2
3 L2 R E -
4 L2 R E -
5 L2 R R -
6 L2 R R -
7 L2 R X -
8 C1 X F C1
9 C1 X F -
10 F F F -
";
    let file = file_of(&plan_p(), b"", b"");
    assert_eq!(file.len(), 42);
    assert_eq!(rehearse(&file, &roll_of(9)), expected);
}

#[test]
fn second_listing_exit_lost() {
    let mut roll = roll_of(10);
    roll[4 * 7 + 3] = 2;
    let got = lines(&plan_p(), &roll);
    assert_eq!(got[..7], lines(&plan_p(), &roll_of(9))[..7]);
    assert_eq!(got[7..], ["8 L2 R F -", "9 L2 X F -", "10 L2 X F -", "11 F F F -"]);
}

#[test]
fn third_listing_lease_request_lost() {
    let mut roll = roll_of(10);
    roll[1] = 3;
    let got = lines(&plan_p(), &roll);
    assert_eq!(got[..4], ["1 L1 F Q Q1!", "2 C1 F Q C1", "3 C1 F Q -", "4 C1 F F -"]);
    assert!(got[4..10].iter().all(|line| line.contains(" C1 ")));
    assert_eq!(got[10], "11 F F F -");
}

#[test]
fn program_on_odd_inputs() {
    let file = file_of(&plan_p(), b"notes", b"more notes");
    let header = "tick sup d1 d2 down\n";
    assert_eq!(rehearse(&file, b""), header);
    assert_eq!(rehearse(b"", b""), "refused 14 0\n");
    assert_eq!(rehearse(&file, &[1, 1, 1, 0, 0]), "refused 12 0\n");
    assert_eq!(rehearse(&file, &[1, 1, 1, 0, 3, 1, 1, 0]), "refused 10 2\n");
    assert_eq!(rehearse(&file_of(&but(plan_p(), |p| p.slots[0].r = 6), b"", b""), b""), "refused 8 1\n");
}

/// "the first 40,000 bytes of `yard.roll` (10,000 ticks; it doesn't look at the rest"
#[test]
fn program_looks_at_ten_thousand_ticks() {
    let file = file_of(&plan_p(), b"", b"");
    let mut roll = CALM.repeat(10_000);
    let text = rehearse(&file, &roll);
    assert_eq!(text.lines().count(), 10_001);
    assert_eq!(text.lines().last(), Some("10000 F F F -"));
    roll.extend([255, 255, 255]);
    assert_eq!(rehearse(&file, &roll), text);
    roll[39_999] = 4;
    assert_eq!(rehearse(&file, &roll), "refused 10 10000\n");
}

/// Recommended readings 1 and 2: moved in step 2 and again in step 4; a due move keeps a waiting Approve.
#[test]
fn two_moves_in_one_tick() {
    assert_eq!(lines(&plan_p(), &[1, 1, 1, 0, 0, 1, 1, 1])[1], "2 C1 X Q C1");
    assert_eq!(lines(&plan_p(), &roll_of(1))[1], "2 L2 R E G2");
}

#[test]
fn engaged_bytes_of_the_first_listing() {
    let mut engaged = [0xAA; 12];
    let (verdict, end, ticks) = model::run(&plan_p(), &Yard::FRESH, &roll_of(9), usize::MAX, &mut engaged);
    assert_eq!((verdict, ticks), (Verdict::ACCEPTED, 10));
    assert_eq!(engaged, [0, 1, 1, 1, 3, 3, 3, 1, 1, 0, 0xAA, 0xAA]);
    assert_eq!(end.device(1).clock, 0);
}
