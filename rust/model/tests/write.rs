//! The writer: files written out by hand from document 01, both round trips, and what a refusal leaves.

mod common;
use common::{but, laser, plan_p, verdict};
use model::gen::files::file_of;
use model::gen::{self, plans, Rng};
use model::{check, plain, read, write, Plan, Verdict};

const CASES: u64 = 100_000;

/// N 2, W 1, B 1, Q 3; F 1, E 1, R 7, X 2, G 1, S 1; F 1, E 3, R 2, X 1, G 0, S 0; the trailer.
#[rustfmt::skip]
const FILE_P: [u8; 42] = [
    2, 0, 1, 0, 1, 0, 3, 0,
    1, 0, 1, 0, 7, 0, 2, 0, 1, 0, 1, 0,
    1, 0, 3, 0, 2, 0, 1, 0, 0, 0, 0, 0,
    32, 0, 1, 0, 42, 0, 0, 0, 0x59, 0x50,
];

/// W 30, B 130, Q 50; F 1, E 30, R 350, X 60, G 30, S 15; F 1, E 100, R 200, X 15, G 0, S 0. 350 is 1 x 256 + 94.
#[rustfmt::skip]
const FILE_LASER: [u8; 42] = [
    2, 0, 30, 0, 130, 0, 50, 0,
    1, 0, 30, 0, 94, 1, 60, 0, 30, 0, 15, 0,
    1, 0, 100, 0, 200, 0, 15, 0, 0, 0, 0, 0,
    32, 0, 1, 0, 42, 0, 0, 0, 0x59, 0x50,
];

/// The writer's answer and the whole buffer afterwards, clear; plain must do the same.
fn written(plan: &Plan, room: usize) -> (Verdict, usize, Vec<u8>) {
    let (mut one, mut two) = (vec![0xA5; room], vec![0xA5; room]);
    let (verdict, length) = write(plan, &mut one);
    assert_eq!(plain::write(plan, &mut two), (verdict, length));
    assert_eq!(one, two);
    (verdict, length, one)
}

#[test]
fn worked_plans_by_hand() {
    assert_eq!(written(&plan_p(), 42), (Verdict::ACCEPTED, 42, FILE_P.to_vec()));
    assert_eq!(written(&laser(), 42), (Verdict::ACCEPTED, 42, FILE_LASER.to_vec()));
}

#[test]
fn bytes_past_the_end_stay() {
    assert_eq!(written(&plan_p(), 50), (Verdict::ACCEPTED, 42, [&FILE_P[..], &[0xA5; 8]].concat()));
}

/// "1 to 9 first, then 20"; either way no byte is written.
#[test]
fn refusals_write_nothing() {
    let short_exit = but(plan_p(), |p| p.slots[0].x = 1);
    for (plan, room, refusal) in [
        (plan_p(), 41, verdict(20, 0)),
        (plan_p(), 0, verdict(20, 0)),
        (short_exit, 42, verdict(9, 1)),
        (short_exit, 41, verdict(9, 1)),
        (short_exit, 0, verdict(9, 1)),
        (but(plan_p(), |p| p.n = 1), 100, verdict(1, 0)),
        (but(plan_p(), |p| p.n = 9), 0, verdict(1, 0)),
        (but(plan_p(), |p| p.slots[7].s = 1), 114, verdict(3, 8)),
    ] {
        assert_eq!(written(&plan, room), (refusal, 0, vec![0xA5; room]), "{plan:?} {room}");
    }
}

/// "Reading what was written gives the plan back"
#[test]
fn written_then_read() {
    let rng = &mut Rng::new(11);
    for _ in 0..CASES {
        let plan = plans::accepted(rng);
        let room = 18 + 12 * plan.devices() + rng.below(3);
        let (verdict, length, file) = written(&plan, room);
        assert_eq!((verdict, length), (Verdict::ACCEPTED, 18 + 12 * plan.devices()));
        assert_eq!(read(&file[..length]), (Verdict::ACCEPTED, plan));
    }
}

/// "writing what was read from a file without notes gives its bytes back"
#[test]
fn read_then_written() {
    let rng = &mut Rng::new(12);
    for _ in 0..CASES {
        let file = file_of(&plans::accepted(rng), b"", b"");
        let (verdict, plan) = read(&file);
        assert_eq!(verdict, Verdict::ACCEPTED);
        assert_eq!(written(&plan, file.len()), (Verdict::ACCEPTED, file.len(), file));
    }
}

/// Room decides alone, and only for an accepted plan; every n is refused with 20, at room 17 + 12 × N too.
#[test]
fn room_decides_after_the_plan() {
    let mut just_short = [0; 9];
    for seed in 0..CASES {
        let case = gen::write_case(seed);
        let (own, whole) = (check(&case.plan), 18 + 12 * case.plan.devices());
        let (answer, length, _) = written(&case.plan, case.room);
        let expected = match own.number {
            0 if case.room < whole => (verdict(20, 0), 0),
            0 => (Verdict::ACCEPTED, whole),
            _ => (own, 0),
        };
        assert_eq!((answer, length), expected, "seed {seed}");
        just_short[case.plan.devices()] += (answer.number == 20 && case.room + 1 == whole) as u32;
    }
    assert!(just_short[2..].iter().all(|&count| count >= 100), "{just_short:?}");
}
