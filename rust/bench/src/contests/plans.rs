//! The plan check, the file reader and the file writer, over arrays of changing plans.

use crate::border;
use crate::contest::{Contest, Side, Unit};
use crate::yards;
use model::bytes::PLAN;
use model::{plain, Plan};
use std::hint::black_box;
use wilatkhun::calls::{self, FILE};

pub fn accepted(n: u16) -> Contest {
    from_bytes(yards::accepted(n), format!("{} accepted plans of 104 bytes", yards::MANY))
}

pub fn mixed(n: u16) -> Contest {
    from_bytes(yards::mixed(n), format!("{} plans of 104 bytes, half of them refused", yards::MANY))
}

pub fn accepted_ready(n: u16) -> Contest {
    from_structs(yards::accepted(n), "as before; the plain side has ready structs".to_string())
}

pub fn mixed_ready(n: u16) -> Contest {
    from_structs(yards::mixed(n), "as before; the plain side has ready structs".to_string())
}

fn library_side(plans: Vec<[u8; PLAN]>) -> Side {
    Box::new(move || {
        for plan in &plans {
            black_box(calls::check(black_box(plan)));
        }
    })
}

fn check(plans: Vec<[u8; PLAN]>, plain: Side, note: String) -> Contest {
    let library = library_side(plans.clone());
    let same = |plan: &[u8; PLAN]| {
        let (one, two) = (calls::check(plan), border::check(plan));
        (one.number, one.index) == (two.number, two.index)
    };
    let agree = Box::new(move || plans.iter().all(same));
    Contest { unit: Unit::Nanoseconds("plan"), items: yards::MANY, library, plain, agree, note }
}

fn from_bytes(plans: Vec<[u8; PLAN]>, note: String) -> Contest {
    let own = plans.clone();
    let side = move || {
        for plan in &own {
            black_box(border::check(black_box(plan)));
        }
    };
    check(plans, Box::new(side), note)
}

fn from_structs(plans: Vec<[u8; PLAN]>, note: String) -> Contest {
    let own: Vec<Plan> = plans.iter().map(border::plan_of).collect();
    let side = move || {
        for plan in &own {
            black_box(plain::check(black_box(plan)));
        }
    };
    check(plans, Box::new(side), note)
}

pub fn read_good(n: u16) -> Contest {
    read(yards::good_files(n), format!("{} files of accepted plans", yards::MANY))
}

pub fn read_any() -> Contest {
    let files = yards::any_files();
    let good = files.iter().filter(|file| model::read(file).0.accepted()).count();
    let note = format!("{} files, {good} of them accepted", files.len());
    read(files, note)
}

fn read(files: Vec<Vec<u8>>, note: String) -> Contest {
    let (library_files, plain_files) = (files.clone(), files.clone());
    Contest {
        unit: Unit::Nanoseconds("file"),
        items: files.len(),
        library: Box::new(move || {
            let mut plan = [0; PLAN];
            for file in &library_files {
                black_box(calls::read(black_box(file), black_box(&mut plan)));
            }
        }),
        plain: Box::new(move || {
            let mut plan = [0; PLAN];
            for file in &plain_files {
                black_box(border::read(black_box(file), black_box(&mut plan)));
            }
        }),
        agree: Box::new(move || {
            files.iter().all(|file| {
                let (mut one, mut two) = ([7; PLAN], [7; PLAN]);
                let (library, plain) = (calls::read(file, &mut one), border::read(file, &mut two));
                (library.number, library.index) == (plain.number, plain.index) && one == two
            })
        }),
        note,
    }
}

/// Accepted plans, each into the same buffer, which has room for any plan's file.
pub fn write(n: u16) -> Contest {
    let plans = yards::accepted(n);
    let (library_plans, plain_plans) = (plans.clone(), plans.clone());
    Contest {
        unit: Unit::Nanoseconds("file"),
        items: plans.len(),
        library: Box::new(move || {
            let mut file = [0; FILE];
            for plan in &library_plans {
                black_box(calls::write(black_box(plan), black_box(&mut file)));
            }
        }),
        plain: Box::new(move || {
            let mut file = [0; FILE];
            for plan in &plain_plans {
                black_box(border::write(black_box(plan), black_box(&mut file)));
            }
        }),
        agree: Box::new(move || {
            plans.iter().all(|plan| {
                let (mut one, mut two) = ([7; FILE], [7; FILE]);
                let (library, (plain, length)) = (calls::write(plan, &mut one), border::write(plan, &mut two));
                let said = (library.verdict.number, library.verdict.index, library.length);
                said == (plain.number, plain.index, length) && one == two
            })
        }),
        note: format!("{} accepted plans of 104 bytes", yards::MANY),
    }
}
