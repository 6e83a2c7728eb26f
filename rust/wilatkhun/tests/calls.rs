//! Each call over slices: once with all in order, refused with every buffer untouched, and with wrong lengths.

mod common;

use common::{but, first_roll, laser, plan_p, CALM, FILE_LASER, FILE_P, FIRST_LISTING, REQUEST};
use wilatkhun::calls::{self, Listed, Piece, Ran, Ticked, Verdict, Written, FILE, PLAN, YARD};

const TAKEN: Verdict = Verdict { number: 0, index: 0 };
const WRONG_LENGTH: Verdict = Verdict { number: 27, index: 0 };

fn refused(number: u8, index: usize) -> Verdict {
    Verdict { number, index }
}

fn fresh_p() -> [u8; YARD] {
    let mut yard = [0xA5; YARD];
    assert_eq!(calls::fresh(&plan_p().to_bytes(), &mut yard), TAKEN);
    yard
}

#[test]
fn check_and_fresh() {
    assert_eq!(calls::check(&plan_p().to_bytes()), TAKEN);
    assert_eq!(calls::check(&but(|p| p.slots[0].r = 6).to_bytes()), refused(8, 1));
    assert_eq!(fresh_p(), [0; YARD]);
}

#[test]
fn tick_sends_and_moves() {
    let mut yard = fresh_p();
    let answer = calls::tick(&plan_p().to_bytes(), &mut yard, REQUEST);
    assert_eq!(answer, Ticked { verdict: TAKEN, down: 1, device: 1 });
    // Lease 1; device 1 Entering with Approve, device 2 Requesting.
    assert_eq!(yard[..16], [1, 1, 0, 0, 0, 0, 0, 0, 0, 0, 2, 3, 0, 0, 1, 0]);
    assert_eq!(yard[16..], [0; 24]);
}

#[test]
fn run_does_the_smaller_of_budget_and_records() {
    let (plan, roll) = (plan_p().to_bytes(), first_roll());
    let (mut yard, mut engaged) = (fresh_p(), [0xA5; 12]);
    let ran = calls::run(&plan, &mut yard, &roll, 8, &mut engaged);
    assert_eq!(ran, Ran { verdict: TAKEN, ticks: 8 });
    assert_eq!(engaged, [0, 1, 1, 1, 3, 3, 3, 1, 0xA5, 0xA5, 0xA5, 0xA5]);
    let ran = calls::run(&plan, &mut yard, &roll[32..], usize::MAX, &mut engaged);
    assert_eq!(ran, Ran { verdict: TAKEN, ticks: 2 });
    assert_eq!(engaged[..3], [1, 0, 1]);
}

#[test]
fn read_gives_the_plan() {
    let mut plan = [0xA5; PLAN];
    assert_eq!(calls::read(&FILE_P, &mut plan), TAKEN);
    assert_eq!(plan, plan_p().to_bytes());
}

#[test]
fn write_gives_the_file() {
    for (plan, by_hand) in [(plan_p(), FILE_P), (laser(), FILE_LASER)] {
        let (mut just, mut more) = ([0xA5; 42], [0xA5; FILE]);
        assert_eq!(calls::write(&plan.to_bytes(), &mut just), Written { verdict: TAKEN, length: 42 });
        assert_eq!(calls::write(&plan.to_bytes(), &mut more), Written { verdict: TAKEN, length: 42 });
        assert_eq!((just, &more[..42]), (by_hand, &by_hand[..]));
        assert_eq!(more[42..], [0xA5; FILE - 42]);
        // And back.
        let mut back = [0xA5; PLAN];
        assert_eq!(calls::read(&just, &mut back), TAKEN);
        assert_eq!(back, plan.to_bytes());
    }
}

#[test]
fn a_refused_write_leaves_every_byte() {
    let nothing = |number, index| Written { verdict: refused(number, index), length: 0 };
    let (good, bad) = (plan_p().to_bytes(), but(|p| p.slots[0].x = 1).to_bytes());
    let mut file = [0xA5; 42];
    assert_eq!(calls::write(&good, &mut file[..41]), nothing(20, 0));
    assert_eq!(calls::write(&good, &mut []), nothing(20, 0));
    // The plan's own number comes first, with room and without.
    assert_eq!(calls::write(&bad, &mut file), nothing(9, 1));
    assert_eq!(calls::write(&bad, &mut file[..41]), nothing(9, 1));
    assert_eq!(calls::write(&bad, &mut []), nothing(9, 1));
    assert_eq!(calls::write(&but(|p| p.n = 9).to_bytes(), &mut file), nothing(1, 0));
    assert_eq!(file, [0xA5; 42]);
}

#[test]
fn find_points_into_what_is_at_fault() {
    let (file, roll) = (FILE_P, first_roll());
    assert_eq!(calls::find(&file, &roll), Piece { part: 1, start: 40, length: 0 });
    assert_eq!(calls::find(&file, &roll[..39]), Piece { part: 1, start: 36, length: 3 });
    assert_eq!(calls::find(&file[1..], &roll), Piece { part: 0, start: 31, length: 10 });
    assert_eq!(calls::find(&[], &[]), Piece { part: 0, start: 0, length: 0 });
}

#[test]
fn header_and_list_are_the_first_listing() {
    let mut out = [0xA5; 800];
    let end = calls::header(2, &mut out, 0);
    let mut yard = fresh_p();
    let listed = calls::list(&plan_p().to_bytes(), &mut yard, &first_roll(), 0, &mut out[end..]);
    assert_eq!((listed.verdict, listed.ticks), (TAKEN, 10));
    assert_eq!(std::str::from_utf8(&out[..end + listed.length]), Ok(FIRST_LISTING));
    assert!(out[end + listed.length..].iter().all(|&byte| byte == 0xA5));
    // Too little room, or too many devices: nothing is written.
    let mut short = [0xA5; 70];
    assert_eq!((calls::header(2, &mut short, 7), calls::header(9, &mut short, 0)), (7, 0));
    assert_eq!((calls::header(2, &mut short, usize::MAX), calls::header(2, &mut [], 0)), (usize::MAX, 0));
    assert_eq!(short, [0xA5; 70]);
}

#[test]
fn a_refused_call_leaves_every_byte() {
    let (good, bad) = (plan_p().to_bytes(), but(|p| p.w = 5).to_bytes());
    let (mut yard, mut lent, mut plan) = ([0xA5; YARD], [0xA5; 100], [0xA5; PLAN]);
    assert_eq!(calls::fresh(&bad, &mut yard), refused(4, 0));
    // Bytes of 0xA5 are no yard's: 11.
    assert_eq!(calls::tick(&good, &mut yard, CALM), Ticked { verdict: refused(11, 0), down: 0, device: 0 });
    assert_eq!(calls::run(&good, &mut yard, &first_roll(), 10, &mut lent), Ran { verdict: refused(11, 0), ticks: 0 });
    let nothing = |verdict| Listed { verdict, ticks: 0, length: 0 };
    assert_eq!(calls::list(&good, &mut yard, &first_roll(), 0, &mut lent), nothing(refused(11, 0)));
    assert_eq!(calls::read(&FILE_P[1..], &mut plan), refused(14, 0));
    assert_eq!((yard, lent, plan), ([0xA5; YARD], [0xA5; 100], [0xA5; PLAN]));
    refused_after_the_state(&good);
}

/// 10, 12 and 13 come after a good state: it stays as it was, and so do the engaged bytes and the text.
fn refused_after_the_state(plan: &[u8]) {
    let (before, mut yard, mut lent) = (fresh_p(), fresh_p(), [0xA5; 100]);
    let mut bad = first_roll();
    bad[39] = 4;
    assert_eq!(calls::tick(plan, &mut yard, [3, 1, 1, 0]).verdict, refused(10, 1));
    assert_eq!(calls::run(plan, &mut yard, &bad, 1, &mut lent).verdict, refused(10, 10));
    assert_eq!(calls::run(plan, &mut yard, &bad[..38], 1, &mut lent).verdict, refused(12, 0));
    assert_eq!(calls::run(plan, &mut yard, &bad[..36], 9, &mut lent[..8]).verdict, refused(13, 0));
    assert_eq!(calls::run(plan, &mut yard, &bad[..36], 9, &mut []).verdict, refused(13, 0));
    assert_eq!(calls::list(plan, &mut yard, &bad, 0, &mut lent).verdict, refused(10, 10));
    assert_eq!((yard, lent), (before, [0xA5; 100]));
}

#[test]
fn wrong_lengths_are_27_before_all_else() {
    let (plan, roll) = ([0xA5; 2 * PLAN], first_roll());
    let (mut yard, mut lent) = ([0xA5; 2 * YARD], [0xA5; 2 * PLAN]);
    for (p, y) in [(0, 0), (103, 40), (105, 40), (104, 39), (104, 41), (104, 0), (0, 40), (208, 80)] {
        let (plan, yard) = (&plan[..p], &mut yard[..y]);
        assert_eq!(calls::fresh(plan, yard), WRONG_LENGTH);
        assert_eq!(calls::tick(plan, yard, CALM), Ticked { verdict: WRONG_LENGTH, down: 0, device: 0 });
        assert_eq!(calls::run(plan, yard, &roll[1..], 3, &mut lent), Ran { verdict: WRONG_LENGTH, ticks: 0 });
        let listed = calls::list(plan, yard, &roll[1..], 0, &mut lent);
        assert_eq!(listed, Listed { verdict: WRONG_LENGTH, ticks: 0, length: 0 });
    }
    for length in [0, 1, 103, 105, 208] {
        assert_eq!(calls::check(&plan[..length]), WRONG_LENGTH);
        assert_eq!(calls::read(&FILE_P, &mut lent[..length]), WRONG_LENGTH);
        for room in [0, 41, 42, PLAN] {
            let written = calls::write(&plan[..length], &mut lent[..room]);
            assert_eq!(written, Written { verdict: WRONG_LENGTH, length: 0 });
        }
    }
    assert_eq!((yard, lent), ([0xA5; 2 * YARD], [0xA5; 2 * PLAN]));
}
