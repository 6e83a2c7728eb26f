//! The speed baseline gives the same answers as the clear half.

use model::bytes::{plan_from_bytes, plan_to_bytes, yard_from_bytes};
use model::gen::{self, Rng};
use model::{check, listing, plain, read, run, write};

#[test]
fn check_is_the_same() {
    for seed in 0..400_000 {
        let plan = gen::check_case(seed);
        assert_eq!(plain::check(&plan), check(&plan), "seed {seed}");
        assert_eq!(plan_from_bytes(&plan_to_bytes(&plan)), plan, "seed {seed}");
    }
}

#[test]
fn run_is_the_same() {
    for seed in 0..300_000 {
        let case = gen::run_case(seed);
        let Some(yard) = yard_from_bytes(&case.yard) else {
            continue;
        };
        let (mut one, mut two, mut now) = (vec![0xA5; case.engaged], vec![0xA5; case.engaged], yard);
        let (verdict, end, ticks) = run(&case.plan, &yard, &case.roll, case.budget, &mut one);
        let answer = plain::run(&case.plan, &mut now, &case.roll, case.budget, &mut two);
        assert_eq!((answer, now), ((verdict, ticks), end), "seed {seed}");
        assert_eq!(one, two, "seed {seed}");
    }
}

#[test]
fn read_is_the_same() {
    for seed in 0..200_000 {
        let file = gen::file_case(seed).file;
        assert_eq!(plain::read(&file), read(&file), "seed {seed}");
    }
}

#[test]
fn write_is_the_same() {
    for seed in 0..400_000 {
        let case = gen::write_case(seed);
        let (mut one, mut two) = (vec![0xA5; case.room], vec![0xA5; case.room]);
        assert_eq!(plain::write(&case.plan, &mut two), write(&case.plan, &mut one), "seed {seed}");
        assert_eq!(one, two, "seed {seed}");
    }
}

#[test]
fn list_is_the_same() {
    for seed in 0..100_000 {
        let case = gen::list_case(seed);
        let Some(yard) = yard_from_bytes(&case.yard) else {
            continue;
        };
        let (mut one, mut two, mut now) = (vec![0xA5; case.room], vec![0xA5; case.room], yard);
        let (verdict, end, ticks, length) = listing::list(&case.plan, &yard, &case.roll, case.first, &mut one);
        let answer = plain::list(&case.plan, &mut now, &case.roll, case.first, &mut two);
        assert_eq!((answer, now), ((verdict, ticks, length), end), "seed {seed}");
        assert_eq!(one, two, "seed {seed}");
    }
}

#[test]
fn header_is_the_same() {
    for n in (0..12).chain([255, 256, 65_535]) {
        for room in [0, 63, 64, 65, 100, 200] {
            for at in [0, 1, 36, 37, 100, 136, 137, 300, usize::MAX] {
                let (mut one, mut two) = (vec![7; room], vec![7; room]);
                assert_eq!(listing::header_at(n, &mut one, at), plain::header(n, &mut two, at));
                assert_eq!(one, two);
            }
        }
    }
}

/// The text of a whole run, in pieces of any size, is the program's.
#[test]
fn listing_in_pieces_is_the_program() {
    let rng = &mut Rng::new(3);
    for _ in 0..300 {
        let plan = gen::plans::lively(rng);
        let roll = gen::rolls::valid(rng, &plan, 200);
        let whole = listing::rehearse(&gen::files::file_of(&plan, b"", b""), &roll);
        let (mut text, mut yard, mut done) = (listing::header(plan.n), model::Yard::FRESH, 0);
        while done < 200 {
            let mut out = vec![0; rng.within(64, 500)];
            let (verdict, after, ticks, length) = listing::list(&plan, &yard, &roll[4 * done..], done as u32, &mut out);
            assert!(verdict.accepted() && ticks > 0);
            text += std::str::from_utf8(&out[..length]).unwrap();
            (yard, done) = (after, done + ticks);
        }
        assert_eq!(text, whole);
    }
}

/// Any bytes at all: no call panics, clear or plain, and they agree.
#[test]
fn raw_bytes_are_taken() {
    let rng = &mut Rng::new(5);
    for _ in 0..200_000 {
        let most = rng.pick(&[2, 8, 255]);
        let plan = plan_from_bytes(&std::array::from_fn(|_| rng.within(0, most) as u8));
        let Some(yard) = yard_from_bytes(&gen::states::raw(rng)) else {
            continue;
        };
        let record = model::Record::from_bytes(std::array::from_fn(|_| rng.byte()));
        model::tick(&plan, &yard, record);
        assert_eq!(model::write(&plan, &mut [0; 114]), plain::write(&plan, &mut [0; 114]));
        model::well_formed(&plan, &yard);
        listing::line(rng.draw(), &plan, &yard, model::Down::Grant(200), true);
        let mut now = yard;
        let plain_answer = plain::run(&plan, &mut now, &record.to_bytes(), 1, &mut [0]);
        assert_eq!(plain_answer.0, run(&plan, &yard, &record.to_bytes(), 1, &mut [0]).0);
    }
}
