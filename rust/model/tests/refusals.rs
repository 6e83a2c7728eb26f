//! Every refusal number comes up in generated cases, at least once in a thousand for its kind of call.

use model::bytes::{yard_from_bytes, yard_to_bytes};
use model::gen::{self, Rng};
use model::{check, listing, read, run, tick, well_formed, write, Verdict, Yard};

const CASES: u64 = 100_000;

/// Counts verdicts by number over all cases, prints them and asserts each of `wanted`.
fn tally(name: &str, wanted: &[u8], verdict_of: impl Fn(u64) -> Verdict) {
    let mut counts = [0u64; 28];
    for seed in 0..CASES {
        counts[verdict_of(seed).number as usize] += 1;
    }
    let shown: Vec<String> = (0..28).filter(|&k| counts[k] > 0).map(|k| format!("{k}: {}", counts[k])).collect();
    println!("{name} of {CASES}: {}", shown.join(", "));
    for &number in wanted {
        assert!(
            counts[number as usize] >= CASES / 1_000,
            "{name}: number {number} only {} times",
            counts[number as usize]
        );
    }
    let found: Vec<u8> = (0..28).filter(|&k| counts[k as usize] > 0).collect();
    assert!(found.iter().all(|k| wanted.contains(k)), "{name}: {found:?}");
}

#[test]
fn check_numbers() {
    tally("check", &[0, 1, 2, 3, 4, 5, 6, 7, 8, 9], |seed| check(&gen::check_case(seed)));
}

#[test]
fn tick_numbers() {
    tally("tick", &[0, 1, 2, 3, 4, 5, 6, 7, 8, 9, 10, 11], |seed| {
        let case = gen::tick_case(seed);
        match yard_from_bytes(&case.yard) {
            Some(yard) => tick(&case.plan, &yard, case.record).0,
            None => model::yard::malformed(&case.plan),
        }
    });
}

#[test]
fn run_numbers() {
    tally("run", &[0, 1, 2, 3, 4, 5, 6, 7, 8, 9, 10, 11, 12, 13], |seed| {
        let case = gen::run_case(seed);
        match yard_from_bytes(&case.yard) {
            Some(yard) => run(&case.plan, &yard, &case.roll, case.budget, &mut vec![0; case.engaged]).0,
            None => model::yard::malformed(&case.plan),
        }
    });
}

#[test]
fn list_numbers() {
    tally("list", &[0, 1, 2, 3, 4, 5, 6, 7, 8, 9, 10, 11, 12], |seed| {
        let case = gen::list_case(seed);
        match yard_from_bytes(&case.yard) {
            Some(yard) => listing::list(&case.plan, &yard, &case.roll, case.first, &mut vec![0; case.room]).0,
            None => model::yard::malformed(&case.plan),
        }
    });
}

#[test]
fn read_numbers() {
    tally("read", &[0, 2, 3, 4, 5, 6, 7, 8, 9, 14, 15, 16, 17, 18, 19], |seed| read(&gen::file_case(seed).file).0);
}

#[test]
fn write_numbers() {
    tally("write", &[0, 1, 2, 3, 4, 5, 6, 7, 8, 9, 20], |seed| {
        let case = gen::write_case(seed);
        write(&case.plan, &mut vec![0; case.room]).0
    });
}

/// For a taken plan, what the program finds in the roll.
#[test]
fn program_numbers() {
    tally("program", &[0, 2, 3, 4, 5, 6, 7, 8, 9, 10, 12, 14, 15, 16, 17, 18, 19], |seed| {
        let case = gen::file_case(seed);
        match listing::rehearse(&case.file, &case.roll).strip_prefix("refused ") {
            None => Verdict::ACCEPTED,
            Some(rest) => Verdict::refused(rest.split(' ').next().unwrap().parse().unwrap(), 0),
        }
    });
}

#[test]
fn finder_pieces_fit_the_refusal() {
    for seed in 0..CASES {
        let case = gen::file_case(seed);
        let piece = model::find(&case.file, &case.roll);
        let (verdict, plan) = read(&case.file);
        let lent = if piece.in_roll { &case.roll } else { &case.file };
        let bytes = &lent[piece.start..piece.start + piece.length];
        match verdict.number {
            0 => {
                let roll = model::yard::roll_verdict(&plan, &case.roll);
                let length = match roll.number {
                    12 => case.roll.len() % 4,
                    10 => 4,
                    _ => 0,
                };
                assert_eq!((piece.in_roll, bytes.len()), (true, length));
                assert!(roll.number == 10 || piece.start + length == case.roll.len());
            }
            14..=19 => {
                assert!(!piece.in_roll && case.file.ends_with(bytes));
                assert_eq!(bytes.len(), case.file.len().min(10));
            }
            _ => assert_eq!(bytes.len(), 8 + 12 * bytes[0] as usize),
        }
    }
}

#[test]
fn accepted_plans_are_accepted() {
    let rng = &mut Rng::new(7);
    for _ in 0..CASES {
        assert_eq!(check(&gen::plans::accepted(rng)), Verdict::ACCEPTED);
    }
}

/// Which of c2, c3, c5, c6, c7 accepted plans meet just so, so that the edges are seen from inside too.
#[test]
fn accepted_plans_sit_at_the_edges() {
    let rng = &mut Rng::new(8);
    let mut just = [0u32; 7];
    for _ in 0..20_000 {
        let p = gen::plans::accepted(rng);
        let n = p.devices();
        let w = p.w as usize;
        just[0] += (p.ls() == n * w + 1) as u32;
        just[1] += (p.q as usize == (n - 1) * w + 1) as u32;
        just[2] += (p.q as usize + 1 == p.ls()) as u32;
        for i in 1..n {
            let (o, d) = (p.slot(i), p.slot(i + 1));
            just[3] += (o.e + o.g + 1 == d.e) as u32;
            just[4] += (o.e as usize + o.r as usize == w + d.span() + 1) as u32;
            just[5] += (o.x == o.s + 1) as u32;
        }
        just[6] += (p.slots.iter().any(|d| d.f == 36_000 || d.r > 30_000)) as u32;
    }
    println!(
        "just kept: c2 {}, c3 low {}, c3 high {}, c5 {}, c6 {}, c7 {}; large {}",
        just[0], just[1], just[2], just[3], just[4], just[5], just[6]
    );
    assert!(just.iter().all(|&count| count >= 20), "{just:?}");
}

#[test]
fn states_are_as_named_and_ticks_keep_them() {
    let rng = &mut Rng::new(9);
    let mut broken = 0;
    for _ in 0..CASES {
        let plan = gen::plans::accepted(rng);
        let yard = gen::states::well_formed(rng, &plan);
        assert!(well_formed(&plan, &yard));
        broken += !well_formed(&plan, &gen::states::broken(rng, &plan)) as u64;
        for record in model::yard::records(&gen::rolls::valid(rng, &plan, 3)) {
            let after = tick(&plan, &yard, record).1;
            assert!(well_formed(&plan, &after), "{plan:?} {yard:?} {record:?}");
        }
        let bytes = yard_to_bytes(&yard);
        assert_eq!(yard_from_bytes(&bytes), Some(yard));
    }
    println!("broken states not well formed: {broken} of {CASES}");
    assert!(broken > CASES * 9 / 10);
}

#[test]
fn malformed_bytes_are_no_yard() {
    let fresh = yard_to_bytes(&Yard::FRESH);
    for (at, value) in [(0, 4), (1, 1), (10, 6), (11, 6), (38, 6), (39, 255)] {
        let mut bytes = fresh;
        bytes[at] = value;
        assert_eq!(yard_from_bytes(&bytes), None);
    }
}
