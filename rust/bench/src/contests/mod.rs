//! What is measured, by name. A contest is made only when it is asked for.

mod plans;
mod runs;
mod text;

use crate::contest::Contest;

pub type Make = Box<dyn Fn() -> Contest>;

const LENGTHS: [usize; 6] = [1, 10, 100, 1_000, 10_000, 100_000];

fn add(all: &mut Vec<(String, Make)>, name: String, make: impl Fn() -> Contest + 'static) {
    all.push((name, Box::new(make)));
}

pub fn all() -> Vec<(String, Make)> {
    let mut all = Vec::new();
    for n in [2, 3, 8] {
        add(&mut all, format!("run-{n}-busy"), move || runs::busy(n));
        add(&mut all, format!("run-{n}-quiet"), move || runs::quiet(n));
    }
    for n in [2, 3, 8] {
        add(&mut all, format!("tick-{n}"), move || runs::tick(n));
    }
    for n in [2, 3, 8] {
        add(&mut all, format!("check-{n}-accepted"), move || plans::accepted(n));
        add(&mut all, format!("check-{n}-mixed"), move || plans::mixed(n));
        add(&mut all, format!("check-{n}-accepted-ready"), move || plans::accepted_ready(n));
        add(&mut all, format!("check-{n}-mixed-ready"), move || plans::mixed_ready(n));
    }
    for n in [2, 8] {
        add(&mut all, format!("read-{n}"), move || plans::read_good(n));
    }
    add(&mut all, "read-mixed".to_string(), plans::read_any);
    for n in [2, 8] {
        add(&mut all, format!("write-{n}"), move || plans::write(n));
    }
    for n in [2, 8] {
        add(&mut all, format!("list-{n}"), move || text::list(n));
    }
    for n in [2, 8] {
        for ticks in LENGTHS {
            add(&mut all, format!("length-{n}-{ticks}"), move || runs::length(n, ticks));
        }
    }
    all
}
